# A waiting putter's message loses its high word when a get makes room.
# Demand 3 alone catches it.
/^static outcome fifo_get/,/^}/s/, first_word(table, number))/, (uint32_t)first_word(table, number))/
