# A waiter that is met or timed out without a message keeps its high word.
/^static void make_ready/,/^}/s/^    set_message(/    if (word == 0) task[T_WORD] = 0; else set_message(/
