# A high word is 9 before a malformed source is 2.
/^static uint32_t move(/,/^}/s/^    if (second_well_formed/    if (new->words < old->words \&\& from[EDITION_AT] == EDITION_2 \&\& has_high_word(from)) return HIGH_WORD; if (second_well_formed/
