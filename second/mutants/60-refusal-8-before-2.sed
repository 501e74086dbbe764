# Refusal 8 is tested before 2: no room for the Blank line.
/^second_listing_reply second_listing(/,/^}/s/{NOT_WELL_FORMED, 0}/{room < 14 ? SHORT_BUFFER : NOT_WELL_FORMED, 0}/
