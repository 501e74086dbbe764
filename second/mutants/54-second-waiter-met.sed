# The second waiter is met before the first.
# Demand 3 alone catches it.
/^static uint32_t meet_first/,/^}/s/uint32_t task = table\[list_place(table, hub)\] - 1;/uint32_t task = table[list_place(table, hub) + (table[list_place(table, hub) + 1] != 0)] - 1;/
