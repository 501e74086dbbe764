# A new hub's count is 0, not its start.
# Demand 3 alone catches it.
/^static void add_hub/,/^}/s/hub\[H_COUNT\] = call\[C_WORD\]/hub[H_COUNT] = 0/
