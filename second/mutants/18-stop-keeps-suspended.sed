# Stop leaves the suspended flag.
/^static int stop/,/^}/s/memset(task, 0, layout_of(table)->task_words/memset(task + 2, 0, (layout_of(table)->task_words - 2)/
