# A put FAILs while getters wait.
# Demand 3 alone catches it.
/^static outcome memory_put/,/^}/s/!is_out(table, number, block)/& || waiting_side(table, number) == GET/
