# Ahead leaves the suspended out.
/^static uint32_t ahead_of_caller/,/^}/s/^    return entries_before.*/    uint32_t some = 0; for (size_t at = list_place(table, hub); table[at] != call[C_CALLER] + 1; at++) some += table[task_place(table, table[at] - 1) + T_SUSPENDED] == 0; return some;/
