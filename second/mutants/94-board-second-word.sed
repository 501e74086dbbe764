# Well formed lets a written Board's store hold more than its word.
s/uint32_t held = holds_words(hub\[H_KIND\]) ? hub\[H_COUNT\] : 0;/uint32_t held = !holds_words(hub[H_KIND]) ? 0 : hub[H_KIND] == BOARD ? HELD_MOST * hub[H_COUNT] : hub[H_COUNT];/
