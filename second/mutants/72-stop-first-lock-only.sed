# Stop passes only the first Resource that the task owns.
# Demand 3 alone catches it.
/^static void give_up_locks/,/^}/s/pass_on(table, number);/{ pass_on(table, number); return; }/
