# A put's number is its low word alone.
# Demand 3 alone catches it.
/^static outcome put(/,/^}/s/return memory_put(table, hub, word);/return memory_put(table, hub, (uint32_t)word);/
