# A FIFO's waiting getter receives the low word only.
# Demand 3 alone catches it.
/^static outcome fifo_put/,/^}/s/meet_first(table, number, word)/meet_first(table, number, (uint32_t)word)/
