# The last place is left out.
/^static uint32_t differing(/,/^}/s/place < words;/place + 1 < words;/
