# An owner who waits for something else than a lock inherits nothing.
/^static void hand_on/,/^}/s/if (owner\[task\] != 0 &&/if (owner[task] != 0 \&\& (table[task_place(table, owner[task] - 1) + T_STATE] != WAITING || owner[owner[task] - 1] != 0) \&\&/
