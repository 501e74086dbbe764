# A move down takes a destination of 744 words.
/^static uint32_t move(/,/^}/s/to_words != new->words/(to_words != new->words \&\& to_words != old->words)/
