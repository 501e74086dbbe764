# Well formed takes a Memory's count for the blocks that are out.
/^static int memory_clause/,/^}/s/hub\[H_COUNT\] + out == hub\[H_LIMIT\]/hub[H_COUNT] == out/
