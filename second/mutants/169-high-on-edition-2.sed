# Edition 2 refuses a high word, too.
/^static int high_fits/,/^}/s/ || is_wide(table);/;/
