# An update of a written Board is not now.
/^static outcome board_update/,/^}/s/^    table\[hub_place(table, number) + H_COUNT\] = 1;/    if (table[hub_place(table, number) + H_COUNT] == 1) return NOT_NOW; else table[hub_place(table, number) + H_COUNT] = 1;/
