# A second table of another length is 13, whatever the length.
/^second_compare_reply second_compare(/,/^}/s/reply.refusal = table_refusal(second, second_words);/reply.refusal = first_words != second_words ? DIFFERING_EDITIONS : table_refusal(second, second_words);/
