# They are put back against task number order.
/^static void put_back/,/^}/s/^            leave_any_list(table, task);/            leave_any_list(table, task); for (uint32_t task = tasks; task-- > 0;) if (new[task] != old[task]) join_any_list(table, task); return;/
