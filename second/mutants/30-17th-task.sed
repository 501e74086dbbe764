# A 17th task is taken.
/^static int room_left/,/^}/s/TASKS_IN_USE_AT\] < TASKS/TASKS_IN_USE_AT] <= TASKS/
