# A get takes the highest free block.
# Demand 3 alone catches it.
/^static outcome memory_get/,/^}/s/while (is_out(table, number, block))/for (uint32_t i = 0; i < hub[H_LIMIT]; i++) if (!is_out(table, number, i)) block = i; if (0)/
