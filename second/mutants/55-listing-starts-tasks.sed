# The listing starts a task that isn't inactive (side 1).
/^static void write_tasks/,/^}/s/\[C_TARGET\] = task\[T_PRIORITY\]/&, [C_SIDE] = task[T_STATE] != INACTIVE/
