# Services 2 to 6 leave the caller's high word.
/^static void task_service/,/^}/s/set_message(table, word_place(table, call\[C_CALLER\]), 0);/table[word_place(table, call[C_CALLER])] = 0;/
