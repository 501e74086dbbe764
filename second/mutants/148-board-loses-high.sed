# A Board shows the low word only.
# Demand 3 alone catches it.
/^static outcome board_update/,/^}/s/store_place(table, number), word)/store_place(table, number), (uint32_t)word)/
