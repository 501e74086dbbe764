# 1,000,000 ticks are refused.
s/ticks <= TICKS_MAX; }/ticks < TICKS_MAX; }/
