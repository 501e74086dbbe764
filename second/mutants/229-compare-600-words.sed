# Only the first 600 words of an edition 2 table are compared.
/^static uint32_t differing(/,/^}/s/place < words;/place < WORDS;/
