# A block that goes to the last waiting getter is free as well.
# Demand 3 alone catches it.
/^static outcome memory_put/,/^}/s/meet_first(table, number, block);/& if (waiting_side(table, number) == NO_SIDE) { table[held_place(table, number, (uint32_t)block)] = 0; table[hub_place(table, number) + H_COUNT]++; }/
