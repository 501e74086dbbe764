# Over bytes the first table's length is cut to whole words.
/^second_compare_reply second_compare_bytes(/,/^}/s/old_words = whole_words(first_bytes)/old_words = first_bytes \/ 4/
