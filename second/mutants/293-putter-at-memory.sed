# Well formed lets putters wait at a Memory with every block in it.
/^static int putters_may_wait/,/^}/s/ \&\& hub\[H_KIND\] != MEMORY//
