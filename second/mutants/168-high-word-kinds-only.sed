# Edition 1 refuses a high word only where a message is kept.
/^static int high_fits/,/^}/s/is_wide(table);/is_wide(table) || (!carries_words(table[hub_place(table, call[C_TARGET]) + H_KIND]) \&\& table[hub_place(table, call[C_TARGET]) + H_KIND] != BOARD);/
