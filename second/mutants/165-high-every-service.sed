# Edition 1 refuses a high word in every service.
/^static int high_fits/,/^}/s/return .*/return call[C_HIGH] == 0 || is_wide(table);/
