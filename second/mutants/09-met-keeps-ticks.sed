# A met waiter keeps its ticks.
/^static void make_ready/,/^}/s/task\[T_TICKS\] = 0;/;/
