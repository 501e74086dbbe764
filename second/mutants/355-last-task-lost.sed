# The last task hands nothing on.
# Demand 3 alone catches it.
/^static void hand_on/,/^}/s/task < table\[TASKS_IN_USE_AT\]/task + 1 < table[TASKS_IN_USE_AT]/
