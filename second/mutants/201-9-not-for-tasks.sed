# A move down doesn't look at the high words of tasks.
# Demand 3 alone catches it.
/^static int has_high_word/,/^}/s/task < TASKS/task < 0/
