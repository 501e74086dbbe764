# A move down looks at the first message of a store only.
/^static int has_high_word/,/^}/s/i < HELD_MOST/i < 1/
