# Sleep leaves the caller's high word.
/^static void sleep/,/^}/s/set_message(table, word_place(table, call\[C_CALLER\]), 0);/table[word_place(table, call[C_CALLER])] = 0;/
