# An added task joins behind all.
# Demand 3 alone catches it.
/^static void add_task/,/^}/s/^        start(table, number);/        { task[T_PRIORITY] = PRIORITY_MAX; start(table, number); task[T_PRIORITY] = call[C_TARGET]; }/
