# A move down is refused with 9 where every high word is 0.
/^static int has_high_word/,/^}/s/any >> 32 != 0/any != 0/
