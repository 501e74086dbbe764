# A short buffer isn't refused.
/^second_compare_reply second_compare(/,/^}/s/room < ENTRY_WORDS \* (size_t)count)/0)/
