# Blank is refused on a table that is not well formed.
/^static uint32_t refusal_of/,/^}/s/if (call\[C_SERVICE\] == BLANK)/if (0)/
