# Only the low halves of the words are compared.
/^static uint32_t differing(/,/^}/s/if (old\[place\] == new\[place\])/if ((uint16_t)old[place] == (uint16_t)new[place])/
