# One word too few is room enough.
/^second_compare_reply second_compare(/,/^}/s/room < ENTRY_WORDS \* (size_t)count)/room + 1 < ENTRY_WORDS * (size_t)count)/
