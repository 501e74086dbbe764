# A high word is 9 before a destination of the wrong size is 1.
/^static uint32_t move(/,/^}/s/^    if (from_words != old->words ||/    if (from_words == WORDS_2 \&\& new->words == WORDS \&\& from[EDITION_AT] == EDITION_2 \&\& has_high_word(from)) return HIGH_WORD; if (from_words != old->words ||/
