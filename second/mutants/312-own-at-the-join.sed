# During a call tasks join by their own priority.
# Demand 3 alone catches it.
/^static void serve_in_order/,/^}/s/^    wear(table, tasks, old);/    (void)old;/
