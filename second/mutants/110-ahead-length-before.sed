# Ahead is the length of the list before the caller joined: less urgent ones count.
/^static uint32_t ahead_of_caller/,/^}/s/^    return entries_before.*/    uint32_t all = 0; while (all < LIST_WORDS \&\& table[list_place(table, hub) + all] != 0) all++; return all - 1;/
