# Stop passes every Resource on, whoever owns it.
# Demand 3 alone catches it.
/^static void give_up_locks/,/^}/s/hub\[H_COUNT\] == owner + 1)/hub[H_COUNT] != 0)/
