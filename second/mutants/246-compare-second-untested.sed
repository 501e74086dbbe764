# The second table may be malformed.
/^second_compare_reply second_compare(/,/^}/s/reply.refusal = table_refusal(second, second_words);/reply.refusal = layout_for(second_words) == NULL ? BAD_LENGTH : ACCEPTED;/
