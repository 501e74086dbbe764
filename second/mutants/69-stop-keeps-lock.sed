# The lock stays with the stopped task.
# Demand 3 alone catches it.
/^static int stop/,/^}/s/^    give_up_locks(table, target);/    ;/
