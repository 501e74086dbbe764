# Ahead is counted in the list of hub 0.
/^static uint32_t ahead_of_caller/,/^}/s/^    return entries_before.*/    uint32_t some = 0; while (some < LIST_WORDS \&\& table[list_place(table, 0) + some] != 0 \&\& table[list_place(table, 0) + some] != call[C_CALLER] + 1) some++; return some;/
