# The buffer's length is taken for bytes.
/^second_compare_reply second_compare(/,/^}/s/room < ENTRY_WORDS \* (size_t)count)/room < 4 * ENTRY_WORDS * (size_t)count)/
