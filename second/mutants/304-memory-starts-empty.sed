# A Memory begins with no block.
# Demand 3 alone catches it.
/^static void add_hub/,/^}/s/hub\[H_COUNT\] = call\[C_WORD\];/hub[H_COUNT] = call[C_TARGET] == MEMORY ? 0 : call[C_WORD];/
