# Stop leaves a Resource owned that nobody waits for.
# Demand 3 alone catches it.
/^static void give_up_locks/,/^}/s/== owner + 1)/== owner + 1 \&\& table[list_place(table, number)] != 0)/
