# A move takes a larger destination.
/^static uint32_t move(/,/^}/s/to_words != new->words/to_words < new->words/
