# The least urgent waiter is inherited.
# Demand 3 alone catches it.
/^static void hand_on/,/^}/s/priority\[task\] < priority/priority[task] > priority/
