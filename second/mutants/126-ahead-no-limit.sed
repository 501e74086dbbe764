# Under W nobody is ahead.
/^static uint32_t ahead_of_caller/,/^}/s/^    return entries_before.*/    return call[C_MODE] == W ? 0 : entries_before(table, list_place(table, hub), call[C_CALLER]);/
