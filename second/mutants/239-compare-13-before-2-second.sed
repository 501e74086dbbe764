# Differing editions are 13 before a malformed second table is 2.
/^second_compare_reply second_compare(/,/^}/s/reply.refusal = table_refusal(second, second_words);/reply.refusal = layout_for(second_words) != NULL \&\& first_words != second_words ? DIFFERING_EDITIONS : table_refusal(second, second_words);/
