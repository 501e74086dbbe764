# They are put back by the priority that they had.
# Demand 3 alone catches it.
/^static void serve_in_order/,/^}/s/^    wear(table, tasks, new);/    wear(table, tasks, old);/
