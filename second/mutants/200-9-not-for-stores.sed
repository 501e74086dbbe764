# A move down doesn't look at the high words of stores.
# Demand 3 alone catches it.
/^static int has_high_word/,/^}/s/hub < HUBS/hub < 0/
