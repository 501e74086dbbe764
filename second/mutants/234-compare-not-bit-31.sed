# Bit 31 isn't compared.
/^static uint32_t differing(/,/^}/s/if (old\[place\] == new\[place\])/if (old[place] << 1 == new[place] << 1)/
