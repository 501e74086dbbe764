# 8 also for a buffer that the entries fill.
/^second_compare_reply second_compare(/,/^}/s/room < ENTRY_WORDS \* (size_t)count)/count > 0 \&\& room <= ENTRY_WORDS * (size_t)count)/
