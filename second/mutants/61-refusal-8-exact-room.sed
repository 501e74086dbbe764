# A buffer of exactly the listing's length is refused.
/^second_listing_reply second_listing(/,/^}/s/room < counted.length/room <= counted.length/
