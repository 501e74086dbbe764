# The place that a FIFO's get leaves keeps its high word.
/^static outcome fifo_get/,/^}/s/^    set_message(table, held_place(table, number, hub\[H_COUNT\]), 0);/    table[held_place(table, number, hub[H_COUNT])] = 0;/
