# Well formed lets a mark be 2.
/^static int memory_clause/,/^}/s/mark > 1/mark > 2/
