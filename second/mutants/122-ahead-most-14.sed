# Ahead is at most 14.
/^static uint32_t ahead_of_caller/,/^}/s/^    return entries_before.*/    return entries_before(table, list_place(table, hub), call[C_CALLER]) > 14 ? 14 : entries_before(table, list_place(table, hub), call[C_CALLER]);/
