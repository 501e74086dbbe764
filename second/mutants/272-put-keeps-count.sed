# A put leaves the count, though nobody waits.
# Demand 3 alone catches it.
/^static outcome memory_put/,/^}/s/.*H_COUNT\]++;/    ;/
