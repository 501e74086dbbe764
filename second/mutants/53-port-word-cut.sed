# A Port passes half of the word.
# Demand 3 alone catches it.
/^static outcome port_put/,/^}/s/meet_first(table, number, word)/meet_first(table, number, word \& 0xFFFF)/
