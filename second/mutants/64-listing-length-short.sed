# The length leaves out the last newline.
/^second_listing_reply second_listing(/,/^}/s/(uint32_t)written.length}/(uint32_t)written.length - 1}/
