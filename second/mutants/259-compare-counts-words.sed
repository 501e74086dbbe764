# The count is of words, not of entries.
/^second_compare_reply second_compare(/,/^}/s/^    reply.count = differing(.*/& reply.count *= ENTRY_WORDS;/
