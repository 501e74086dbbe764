# The buffer's length is taken for entries.
/^second_compare_reply second_compare(/,/^}/s/room < ENTRY_WORDS \* (size_t)count)/room < count)/
