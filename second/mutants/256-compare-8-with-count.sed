# A short buffer's refusal tells the count.
/^second_compare_reply second_compare(/,/^}/s/{SHORT_BUFFER, 0}/{SHORT_BUFFER, count}/
