# A put leaves the getters waiting: its block is free.
# Demand 3 alone catches it.
/^static outcome memory_put/,/^}/s/waiting_side(table, number) == GET/waiting_side(table, number) == PUT/
