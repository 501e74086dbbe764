# Over bytes a second table of another length is 1 before the first is found malformed.
/^second_compare_reply second_compare_bytes(/,/^}/s/^    return second_compare(/    if (layout_for(new_words) == NULL) return (second_compare_reply){BAD_LENGTH, 0}; return second_compare(/
