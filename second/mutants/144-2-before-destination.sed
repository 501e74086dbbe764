# A malformed source is 2 before a destination of the wrong size is 1.
/^static uint32_t move(/,/^}/s/^    if (from_words != old->words ||/    if (from_words == old->words \&\& second_well_formed(from, from_words) != SECOND_RIGHT) return NOT_WELL_FORMED; if (from_words != old->words ||/
