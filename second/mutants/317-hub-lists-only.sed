# The hub lists are put in order, the ready list is not.
# Demand 3 alone catches it.
/^static void serve_in_order/,/^}/s/^    put_back(/    for (uint32_t task = 0; task < tasks; task++) if (table[task_place(table, task) + T_STATE] == READY) new[task] = old[task]; put_back(/
