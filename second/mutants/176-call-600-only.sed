# A call takes 600 words only.
/^static uint32_t refusal_of/,/^}/s/layout_for(words) == NULL/words != WORDS/
