# Tick lets one task time out and leaves the rest.
# Demand 3 alone catches it.
/^static void tick/,/^}/s/^        make_ready.*/        make_ready(table, number, TO, 0); break;/
