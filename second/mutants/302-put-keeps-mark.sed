# A put leaves its block's mark, though nobody waits.
# Demand 3 alone catches it.
/^static outcome memory_put/,/^}/s/(uint32_t)block)\] = 0;/(uint32_t)block)] = 1;/
