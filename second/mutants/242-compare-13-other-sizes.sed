# 13 also where T or H differs.
/^second_compare_reply second_compare(/,/^}/s/first_words != second_words)/memcmp(first, second, 32) != 0)/
