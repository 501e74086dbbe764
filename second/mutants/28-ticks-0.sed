# 0 ticks are taken under WT and by Sleep.
s/return ticks >= 1 && ticks <= TICKS_MAX/return ticks <= TICKS_MAX/
