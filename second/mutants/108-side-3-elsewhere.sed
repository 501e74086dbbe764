# Side 3 wipes any hub.
# Demand 3 alone catches it.
/^static uint32_t refusal_of/,/^}/s/if (!side_known(table, call))/if (0)/
