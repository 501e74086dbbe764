# Well formed lets a sleeper have a high word.
/^static int task_clause/,/^}/s/(task\[T_HUB\] | task\[T_SIDE\] | word | answer)/(task[T_HUB] | task[T_SIDE] | (uint32_t)word | answer)/
