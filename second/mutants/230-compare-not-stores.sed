# Stores aren't compared.
/^static uint32_t differing(/,/^}/s/place < words;/place < layout_for(words)->stores_at;/
