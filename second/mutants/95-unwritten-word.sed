# Well formed lets a Board without a word keep one in its store.
s/uint32_t held = holds_words(hub\[H_KIND\]) ? hub\[H_COUNT\] : 0;/uint32_t held = hub[H_KIND] == BOARD ? 1 : hub[H_KIND] == FIFO ? hub[H_COUNT] : 0;/
