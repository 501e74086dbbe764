# A caller that waits without a message keeps the high word it had.
/^static void wait_at_hub/,/^}/s/^    set_message(/    if (!keeps_word) caller[T_WORD] = 0; else set_message(/
