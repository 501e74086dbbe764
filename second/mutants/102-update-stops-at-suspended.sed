# An update meets no reader from the first suspended one on.
/^static outcome board_update/,/^}/s/== GET)/== GET \&\& table[task_place(table, table[list_place(table, number)] - 1) + T_SUSPENDED] == 0)/
