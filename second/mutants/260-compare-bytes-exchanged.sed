# Over bytes the second table is taken for the first.
/^second_compare_reply second_compare_bytes(/,/^}/s/second_compare(old, old_words, new, new_words,/second_compare(new, new_words, old, old_words,/
