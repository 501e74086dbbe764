# The 16th task isn't listed.
/^static void write_tasks/,/^}/s/number < table\[TASKS_IN_USE_AT\]/& \&\& number < TASKS - 1/
