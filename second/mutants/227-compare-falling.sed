# The entries stand in falling order.
/^static uint32_t differing(/,/^}/s/places + ENTRY_WORDS \* count,/places + ENTRY_WORDS * (differing(old, new, words, NULL) - 1 - count),/
