# A move leaves a FIFO's 8th message behind.
/^static void copy_messages/,/^}/s/i < HELD_MOST/i < HELD_MOST - 1/
