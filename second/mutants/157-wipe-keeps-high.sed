# A wipe leaves the Board's high word.
/^static outcome board_wipe/,/^}/s/set_message(table, store_place(table, number), 0);/table[store_place(table, number)] = 0;/
