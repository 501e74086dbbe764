# The last task is never put back.
# Demand 3 alone catches it.
/^static void serve_in_order/,/^}/s/put_back(table, tasks, old, new)/put_back(table, tasks > 1 ? tasks - 1 : tasks, old, new)/
