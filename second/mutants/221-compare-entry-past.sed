# The place of one more entry is written behind the last, where there is room for it.
/^second_compare_reply second_compare(/,/^}/s/^    reply.count = differing(.*/& if (room >= ENTRY_WORDS * ((size_t)count + 1)) places[ENTRY_WORDS * count] = (uint32_t)first_words;/
