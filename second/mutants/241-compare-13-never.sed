# Tables of two editions are compared over the shorter one.
/^second_compare_reply second_compare(/,/^}/s/first_words != second_words)/first_words != second_words \&\& (first_words = WORDS) == 0)/
