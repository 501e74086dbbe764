# A place whose new word is 0 isn't listed.
/^static uint32_t differing(/,/^}/s/if (old\[place\] == new\[place\])/if (new[place] == 0 || old[place] == new[place])/
