# An update also meets the first reader of every other Board.
# Demand 3 alone catches it.
/^static outcome board_update/,/^}/s/^    return MET;/    for (uint32_t other = 0; other < table[HUBS_IN_USE_AT]; other++) if (table[hub_place(table, other) + H_KIND] == BOARD \&\& waiting_side(table, other) == GET) meet_first(table, other, word); return MET;/
