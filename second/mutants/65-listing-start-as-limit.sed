# The listing has a hub's start where its limit should be.
/^static void write_hubs/,/^}/s/\[C_TICKS\] = hub\[H_LIMIT\]/[C_TICKS] = hub[H_START]/
