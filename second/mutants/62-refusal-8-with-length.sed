# Refusal 8 gives the length that would be needed.
/^second_listing_reply second_listing(/,/^}/s/{SHORT_BUFFER, 0}/{SHORT_BUFFER, (uint32_t)counted.length}/
