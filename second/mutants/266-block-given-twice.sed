# A get leaves its block without a mark, so the next one takes it too.
# Demand 3 alone catches it.
/^static outcome memory_get/,/^}/s/number, block)\] = 1;/number, block)] = 0;/
