# Well formed takes unused task records for 8 words.
/^static int unused_clause/,/^}/s/(TASKS - tasks) \* task_words/(TASKS - tasks) * 8/
