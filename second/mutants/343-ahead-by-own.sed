# Ahead is counted by own priority.
/^static uint32_t ahead_of_caller/,/^}/s/^    return entries_before.*/    uint32_t some = 0; for (size_t at = list_place(table, hub); at < list_place(table, hub) + LIST_WORDS \&\& table[at] != 0; at++) some += table[at] != call[C_CALLER] + 1 \&\& table[task_place(table, table[at] - 1) + T_PRIORITY] <= caller[T_PRIORITY]; return some;/
