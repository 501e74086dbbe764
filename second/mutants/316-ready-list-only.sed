# The ready list is put in order, the hub lists are not.
/^static void serve_in_order/,/^}/s/^    put_back(/    for (uint32_t task = 0; task < tasks; task++) if (table[task_place(table, task) + T_STATE] == WAITING) new[task] = old[task]; put_back(/
