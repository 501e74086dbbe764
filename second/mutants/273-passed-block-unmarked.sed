# A block that goes to a waiting getter loses its mark.
# Demand 3 alone catches it.
/^static outcome memory_put/,/^}/s/meet_first(table, number, block);/& table[held_place(table, number, (uint32_t)block)] = 0;/
