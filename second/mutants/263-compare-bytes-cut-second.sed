# Over bytes the second table's length is cut to whole words.
/^second_compare_reply second_compare_bytes(/,/^}/s/new_words = whole_words(second_bytes)/new_words = second_bytes \/ 4/
