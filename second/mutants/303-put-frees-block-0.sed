# A put brings back block 0, whichever it names.
# Demand 3 alone catches it.
/^static outcome memory_put/,/^}/s/(uint32_t)block)\] = 0;/0)] = 0;/
