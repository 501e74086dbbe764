# 8 for no room at all, also where no place differs.
/^second_compare_reply second_compare(/,/^}/s/room < ENTRY_WORDS \* (size_t)count)/room == 0 || room < ENTRY_WORDS * (size_t)count)/
