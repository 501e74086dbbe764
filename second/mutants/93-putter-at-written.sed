# Well formed lets putters wait at a written Board.
/^static int putters_may_wait/,/^}/s/ && hub\[H_KIND\] != BOARD//
