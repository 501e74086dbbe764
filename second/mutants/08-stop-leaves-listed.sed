# Stop leaves a waiter in the hub's list.
/^static int stop/,/^}/s/    leave_any_list/    if (task[T_STATE] != WAITING) leave_any_list/
