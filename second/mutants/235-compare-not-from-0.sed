# A place whose old word is 0 isn't listed.
/^static uint32_t differing(/,/^}/s/if (old\[place\] == new\[place\])/if (old[place] == 0 || old[place] == new[place])/
