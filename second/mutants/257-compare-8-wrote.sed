# A short buffer is filled as far as it goes.
/^second_compare_reply second_compare(/,/^}/s/return (second_compare_reply){SHORT_BUFFER, 0};/{ for (uint32_t p = 0, n = 0; p < first_words \&\& ENTRY_WORDS * (n + 1) <= room; p++) if (first[p] != second[p]) write_entry(places + ENTRY_WORDS * n++, p, first[p], second[p]); return (second_compare_reply){SHORT_BUFFER, 0}; }/
