# A Memory's line in the listing has its count.
/^static void write_hubs/,/^}/s/hub\[H_START\]/hub[hub[H_KIND] == MEMORY ? H_COUNT : H_START]/
