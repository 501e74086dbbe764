# A move goes from any size to the other.
/^static uint32_t move(/,/^}/s/from_words != old->words || to_words != new->words/layout_for(from_words) == NULL || layout_for(to_words) == NULL || from_words == to_words/
