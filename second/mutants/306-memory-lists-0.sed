# A Memory's line in the listing has start 0.
/^static void write_hubs/,/^}/s/hub\[H_START\]/hub[H_KIND] == MEMORY ? 0 : hub[H_START]/
