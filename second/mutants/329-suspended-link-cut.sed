# A suspended waiter hands nothing on.
# Demand 3 alone catches it.
/^static void hand_on/,/^}/s/^            owner\[list/            if (table[task_place(table, list[i] - 1) + T_SUSPENDED] == 0) owner[list/
