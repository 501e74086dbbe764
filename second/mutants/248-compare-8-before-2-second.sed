# A buffer without room for an entry is 8 before a malformed second table is 2.
/^second_compare_reply second_compare(/,/^}/s/reply.refusal = table_refusal(second, second_words);/reply.refusal = table_refusal(second, second_words) == NOT_WELL_FORMED \&\& room < ENTRY_WORDS ? SHORT_BUFFER : table_refusal(second, second_words);/
