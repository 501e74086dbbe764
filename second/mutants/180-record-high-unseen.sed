# Well formed doesn't look at a record's high word.
/^static int task_clause/,/^}/s/uint64_t word = message(.*/uint64_t word = task[T_WORD];/
