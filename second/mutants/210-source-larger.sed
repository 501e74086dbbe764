# A move's larger source is 2, not 1.
/^static uint32_t move(/,/^}/s/from_words != old->words/from_words < old->words/
