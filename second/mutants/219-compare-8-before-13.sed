# A buffer without room for an entry is 8 before differing editions are 13.
/^second_compare_reply second_compare(/,/^}/s/reply.refusal = DIFFERING_EDITIONS;/reply.refusal = room < ENTRY_WORDS ? SHORT_BUFFER : DIFFERING_EDITIONS;/
