# A move leaves what stood in the destination where the source has no task.
/^static void copy_messages/,/^}/s/task < TASKS/task < from[TASKS_IN_USE_AT]/
