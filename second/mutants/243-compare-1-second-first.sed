# The second table's length is tested before the first table is found malformed.
/^second_compare_reply second_compare(/,/^}/s/= {table_refusal(first, first_words), 0};/= {layout_for(second_words) == NULL ? BAD_LENGTH : table_refusal(first, first_words), 0};/
