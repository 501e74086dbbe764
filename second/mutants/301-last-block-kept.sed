# A get is not now while one block is left.
# Demand 3 alone catches it.
/^static outcome memory_get/,/^}/s/hub\[H_COUNT\] == 0/hub[H_COUNT] <= 1/
