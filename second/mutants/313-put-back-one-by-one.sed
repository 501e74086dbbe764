# Changed tasks are taken out and put back one by one.
# Demand 3 alone catches it.
/^static void put_back/,/^}/s/^            leave_any_list(table, task);/            leave_any_list(table, task), join_any_list(table, task); return;/
