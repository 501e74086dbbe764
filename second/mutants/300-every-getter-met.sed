# A put meets every getter with its block.
# Demand 3 alone catches it.
/^static outcome memory_put/,/^}/s/meet_first(table, number, block);/while (waiting_side(table, number) == GET) &/
