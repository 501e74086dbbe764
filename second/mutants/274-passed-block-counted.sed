# A block that goes to a waiting getter is counted as free.
# Demand 3 alone catches it.
/^static outcome memory_put/,/^}/s/meet_first(table, number, block);/& table[hub_place(table, number) + H_COUNT]++;/
