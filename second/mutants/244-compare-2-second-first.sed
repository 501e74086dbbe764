# The second table's words are tested before the first table's length.
/^second_compare_reply second_compare(/,/^}/s/= {table_refusal(first, first_words), 0};/= {layout_for(second_words) != NULL \&\& second_well_formed(second, second_words) != SECOND_RIGHT ? NOT_WELL_FORMED : table_refusal(first, first_words), 0};/
