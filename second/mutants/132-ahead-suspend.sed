# Suspend of a waiter says how many are ahead of it.
/^static uint32_t ahead_of_caller/,/^}/s/^    if (call\[C_SERVICE\] != HUB_REQUEST)/    if (call[C_SERVICE] == SUSPEND \&\& table[task_place(table, call[C_TARGET]) + T_STATE] == WAITING) return entries_before(table, list_place(table, table[task_place(table, call[C_TARGET]) + T_HUB] - 1), call[C_TARGET]); if (call[C_SERVICE] != HUB_REQUEST)/
