# Ahead is 1 for the first.
/^static uint32_t ahead_of_caller/,/^}/s/^    return entries_before.*/    return 1 + entries_before(table, list_place(table, hub), call[C_CALLER]);/
