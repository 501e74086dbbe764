# Old and new words are exchanged.
/^static uint32_t differing(/,/^}/s/place, old\[place\], new\[place\])/place, new[place], old[place])/
