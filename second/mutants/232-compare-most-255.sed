# The places counted are cut to 8 bits.
/^static uint32_t differing(/,/^}/s/return count;/return count \& 255;/
