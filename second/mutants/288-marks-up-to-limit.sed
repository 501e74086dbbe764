# Well formed looks at no mark past the limit.
/^static int memory_clause/,/^}/s/block < HELD_MOST/block < hub[H_LIMIT]/
