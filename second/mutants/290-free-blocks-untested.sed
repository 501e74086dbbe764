# Well formed doesn't compare a Memory's count with its marks.
/^static int memory_clause/,/^}/s/hub\[H_COUNT\] + out == hub\[H_LIMIT\]/1/
