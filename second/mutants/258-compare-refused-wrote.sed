# Differing editions: the first word of the buffer becomes 0.
/^second_compare_reply second_compare(/,/^}/s/reply.refusal = DIFFERING_EDITIONS;/reply.refusal = (room > 0 ? (void)(places[0] = 0) : (void)0, DIFFERING_EDITIONS);/
