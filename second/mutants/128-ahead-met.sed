# A met request says how many go on waiting there.
/^static uint32_t ahead_of_caller/,/^}/s/^    if (caller\[T_STATE\] != WAITING)/    uint32_t all = 0; while (all < LIST_WORDS \&\& table[list_place(table, hub) + all] != 0) all++; if (caller[T_STATE] != WAITING \&\& caller[answer_at(table)] == OK) return all; if (caller[T_STATE] != WAITING)/
