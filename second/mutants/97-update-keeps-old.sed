# An update leaves a written Board as it is.
# Demand 3 alone catches it: of the ledger's tests only the Board's word does.
/^static outcome board_update/,/^}/s/^    table\[hub_place(table, number) + H_COUNT\] = 1;/    if (table[hub_place(table, number) + H_COUNT] == 1) return MET; else table[hub_place(table, number) + H_COUNT] = 1;/
