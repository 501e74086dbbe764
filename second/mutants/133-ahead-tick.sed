# Tick says how many wait.
/^static uint32_t ahead_of_caller/,/^}/s/^    if (call\[C_SERVICE\] != HUB_REQUEST)/    uint32_t some = 0; for (uint32_t task = 0; call[C_SERVICE] == TICK \&\& task < table[TASKS_IN_USE_AT]; task++) some += table[task_place(table, task) + T_STATE] == WAITING; if (some != 0) return some; if (call[C_SERVICE] != HUB_REQUEST)/
