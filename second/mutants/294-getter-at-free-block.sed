# Well formed lets getters wait though a block is free.
/^static int getters_may_wait/,/^}/s/    return hub\[H_COUNT\] == 0;/    return hub[H_COUNT] == 0 || hub[H_KIND] == MEMORY;/
