# Any task may unlock an owned Resource.
s/if (hub\[H_COUNT\] != caller + 1)/if (hub[H_COUNT] == 0)/
