# Ahead is the length of the ready list.
/^static uint32_t ahead_of_caller/,/^}/s/^    return entries_before.*/    uint32_t all = 0; while (all < LIST_WORDS \&\& table[ready_place(table) + all] != 0) all++; return all;/
