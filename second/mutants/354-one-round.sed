# Numbers are handed on once, in task number order.
# Demand 3 alone catches it.
/^static void hand_on/,/^}/s/^                more = 1;/                more = 0;/
