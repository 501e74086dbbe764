# Well formed lets a Resource's owner wait for it.
/^static int getters_may_wait/,/^}/s/hub\[H_COUNT\] != 0 && .*/hub[H_COUNT] != 0;/
