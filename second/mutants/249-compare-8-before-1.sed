# A buffer without room for an entry is 8 before a length is 1.
/^second_compare_reply second_compare(/,/^}/s/= {table_refusal(first, first_words), 0};/= {room < ENTRY_WORDS \&\& layout_for(first_words) == NULL ? SHORT_BUFFER : table_refusal(first, first_words), 0};/
