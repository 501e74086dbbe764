# A move down drops the high words.
# Demand 3 alone catches it.
/^static uint32_t move(/,/^}/s/ && has_high_word(from))/ \&\& 0)/
