# A wipe keeps the store.
/^static outcome board_wipe/,/^}/s/^    set_message(table, store_place(table, number), 0);/    ;/
