# Well formed lets an inactive task have a high word.
/^static int task_clause/,/^}/s/task\[T_TICKS\] | task\[T_SIDE\] | word | answer)/task[T_TICKS] | task[T_SIDE] | (uint32_t)word | answer)/
