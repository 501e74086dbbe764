# Places at which the tables are equal are listed too.
/^static uint32_t differing(/,/^}/s/if (old\[place\] == new\[place\])/if (0)/
