# A get leaves the count.
# Demand 3 alone catches it.
/^static outcome memory_get/,/^}/s/hub\[H_COUNT\]--;/;/
