# Start takes a sleeper.
/^static int start/,/^}/s/!= INACTIVE)/!= INACTIVE \&\& table[task_place(table, target) + T_STATE] != SLEEPING)/
