# A put of a number past the limit, within the store, is met.
# Demand 3 alone catches it.
/^static outcome memory_put/,/^}/s/!is_out(table, number, block)/block < table[hub_place(table, number) + H_LIMIT] ? !is_out(table, number, block) : block >= HELD_MOST/
