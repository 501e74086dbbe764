# A put of a block that isn't out is met.
# Demand 3 alone catches it.
/^static outcome memory_put/,/^}/s/!is_out(table, number, block)/block >= table[hub_place(table, number) + H_LIMIT]/
