# Well formed lets readers wait at a written Board.
/^static int getters_may_wait/,/^}/s/    return hub\[H_COUNT\] == 0;/    return hub[H_COUNT] == 0 || hub[H_KIND] == BOARD;/
