# A suspended owner inherits nothing.
# Demand 3 alone catches it.
/^static void hand_on/,/^}/s/if (owner\[task\] != 0 &&/if (owner[task] != 0 \&\& table[task_place(table, owner[task] - 1) + T_SUSPENDED] == 0 \&\&/
