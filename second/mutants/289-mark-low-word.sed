# Well formed looks at a mark's low word alone.
/^static int memory_clause/,/^}/s/= message(table, held_place(table, number, block));/= table[held_place(table, number, block)];/
