# Sleep says how many sleep already.
/^static uint32_t ahead_of_caller/,/^}/s/^    if (call\[C_SERVICE\] != HUB_REQUEST)/    uint32_t some = 0; for (uint32_t task = 0; call[C_SERVICE] == SLEEP \&\& task < table[TASKS_IN_USE_AT]; task++) some += task != call[C_CALLER] \&\& table[task_place(table, task) + T_STATE] == SLEEPING; if (some != 0) return some; if (call[C_SERVICE] != HUB_REQUEST)/
