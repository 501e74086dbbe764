# Slip 2: a put to a FIFO with a waiting getter also appends its word.
# Demand 3 alone catches it.
/^static outcome fifo_put/,/^}/s/^        meet_first(table, number, word);/        meet_first(table, number, word), set_message(table, held_place(table, number, hub[H_COUNT]++), word);/
