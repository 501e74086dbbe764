# A move down doesn't look at a FIFO's 8th message.
/^static int has_high_word/,/^}/s/i < HELD_MOST/i < HELD_MOST - 1/
