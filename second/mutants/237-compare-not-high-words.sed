# Of edition 2's messages in stores the high words aren't compared.
/^static uint32_t differing(/,/^}/s/if (old\[place\] == new\[place\])/if (old[place] == new[place] || (words == WORDS_2 \&\& place >= 488 \&\& place % 2 == 1))/
