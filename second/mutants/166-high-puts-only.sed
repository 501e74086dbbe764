# Edition 1 refuses the high word of a put only.
/^static int high_fits/,/^}/s/is_wide(table);/is_wide(table) || call[C_SIDE] != PUT;/
