# A read takes the Board's word.
/^static outcome board_read/,/^}/s/^    \*received = .*/& ((uint32_t *)table)[hub_place(table, number) + H_COUNT] = ((uint32_t *)table)[store_place(table, number)] = 0;/
