# The listing is counted, and not written.
/^second_listing_reply second_listing(/,/^}/s/written = {text, 0}/written = {NULL, 0}/
