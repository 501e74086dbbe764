# Well formed lets a mark stand for a block that there isn't.
/^static int memory_clause/,/^}/s/mark == 1 \&\& block >= hub\[H_LIMIT\]/0/
