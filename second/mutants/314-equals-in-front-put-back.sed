# Who is put back goes in front of its equals.
/^static void join_any_list/,/^}/s/^    if (task\[T_STATE\] == READY)/    if (task[T_PRIORITY] > 0) table[task_place(table, number) + T_PRIORITY]--; if (task[T_STATE] == READY)/
