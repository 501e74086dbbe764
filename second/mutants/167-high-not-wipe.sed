# Edition 1 takes a wipe with a high word.
/^static int high_fits/,/^}/s/is_wide(table);/is_wide(table) || call[C_SIDE] == WIPE;/
