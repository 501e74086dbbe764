# A FIFO holds the low word only.
# Demand 3 alone catches it.
/^static outcome fifo_put/,/^}/s/hub\[H_COUNT\]++), word)/hub[H_COUNT]++), (uint32_t)word)/
