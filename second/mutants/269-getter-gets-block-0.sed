# A waiting getter receives the lowest block, whichever came back.
# Demand 3 alone catches it.
/^static outcome memory_put/,/^}/s/meet_first(table, number, block)/meet_first(table, number, 0)/
