# A move leaves the 16th task behind.
/^static void copy_messages/,/^}/s/task < TASKS/task < TASKS - 1/
