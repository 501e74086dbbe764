# The listing takes a table of more than 2400 bytes.
/^second_listing_reply second_listing_bytes(/,/^}/s/size_t words = whole_words(length);/size_t words = length \/ 4;/
