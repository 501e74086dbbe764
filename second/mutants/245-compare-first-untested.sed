# The first table may be malformed.
/^second_compare_reply second_compare(/,/^}/s/= {table_refusal(first, first_words), 0};/= {layout_for(first_words) == NULL ? BAD_LENGTH : ACCEPTED, 0};/
