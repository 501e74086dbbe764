# Well formed lets a Memory's count be less than its free blocks.
/^static int memory_clause/,/^}/s/hub\[H_COUNT\] + out == hub\[H_LIMIT\]/hub[H_COUNT] + out <= hub[H_LIMIT]/
