# Well formed lets a FIFO store hold more than its words.
s/uint32_t held = holds_words(hub\[H_KIND\]) ? hub\[H_COUNT\] : 0;/uint32_t held = hub[H_KIND] == FIFO ? HELD_MOST : holds_words(hub[H_KIND]) ? hub[H_COUNT] : 0;/
