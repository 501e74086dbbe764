# Task 0 inherits nothing.
# Demand 3 alone catches it.
/^static void hand_on/,/^}/s/if (owner\[task\] != 0 &&/if (owner[task] > 1 \&\&/
