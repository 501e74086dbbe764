# A FIFO's newest word is taken.
# Demand 3 alone catches it.
/^static outcome fifo_get/,/^}/s/received = message(table, held_place(table, number, 0))/received = message(table, held_place(table, number, hub[H_COUNT] - 1))/
