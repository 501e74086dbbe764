# A suspended task may be the running one.
/^static uint32_t running/,/^}/s/T_SUSPENDED\] == 0/T_SUSPENDED] <= 1/
