# Ahead says who stands before the caller, not how many.
/^static uint32_t ahead_of_caller/,/^}/s/^    return entries_before.*/    uint32_t place = entries_before(table, list_place(table, hub), call[C_CALLER]); return place == 0 ? 0 : table[list_place(table, hub) + place - 1];/
