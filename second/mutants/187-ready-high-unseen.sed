# Well formed lets a ready task without OK have a high word.
/^static int task_clause/,/^}/s/(word != 0 && answer/((uint32_t)word != 0 \&\& answer/
