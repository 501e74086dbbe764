# Refusal 8 leaves the first byte of the listing in the buffer.
/^second_listing_reply second_listing(/,/^}/s/^    if (room < counted.length)/    if (room > 0) text[0] = '0'; if (room < counted.length)/
