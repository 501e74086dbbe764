# Differing editions are 13 before a malformed first table is 2.
/^second_compare_reply second_compare(/,/^}/s/= {table_refusal(first, first_words), 0};/= {layout_for(first_words) != NULL \&\& layout_for(second_words) != NULL \&\& first_words != second_words ? DIFFERING_EDITIONS : table_refusal(first, first_words), 0};/
