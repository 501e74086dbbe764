# The listing takes 600 words only.
/^second_listing_reply second_listing(/,/^}/s/layout_for(words) == NULL/words != WORDS/
