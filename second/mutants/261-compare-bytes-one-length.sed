# Over bytes the second table's length is taken to be the first's.
/^second_compare_reply second_compare_bytes(/,/^}/s/new_words = whole_words(second_bytes)/new_words = old_words/
