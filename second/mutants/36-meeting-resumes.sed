# A met waiter is resumed.
/^static void make_ready/,/^}/s/task\[T_HUB\] = 0;/task[T_HUB] = 0, task[T_SUSPENDED] = 0;/
