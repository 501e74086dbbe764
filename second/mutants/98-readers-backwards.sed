# An update meets the readers from the last to the first.
/^static outcome board_update/,/^}/s/^    while (/    for (uint32_t at = LIST_WORDS, last; at-- > 0;) if ((last = table[list_place(table, number) + at]) != 0) leave(table, list_place(table, number), last - 1), make_ready(table, last - 1, OK, word); while (/
