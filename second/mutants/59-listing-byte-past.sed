# The byte after the listing becomes 0, where there is room.
/^second_listing_reply second_listing(/,/^}/s/^    write_set_up(&written, table);/& if (written.length < room) text[written.length] = 0;/
