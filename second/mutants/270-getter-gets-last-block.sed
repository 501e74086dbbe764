# A waiting getter receives the highest block, whichever came back.
# Demand 3 alone catches it.
/^static outcome memory_put/,/^}/s/meet_first(table, number, block)/meet_first(table, number, table[hub_place(table, number) + H_LIMIT] - 1)/
