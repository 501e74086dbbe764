# Readers who wait at a Board receive the low word only.
# Demand 3 alone catches it.
/^static outcome board_update/,/^}/s/meet_first(table, number, word)/meet_first(table, number, (uint32_t)word)/
