# The owner of a Resource counts as ahead.
/^static uint32_t ahead_of_caller/,/^}/s/^    return entries_before.*/    return (table[hub_place(table, hub) + H_KIND] == RESOURCE) + entries_before(table, list_place(table, hub), call[C_CALLER]);/
