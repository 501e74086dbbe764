# Priority 256 is taken.
s/call\[C_TARGET\] <= PRIORITY_MAX/call[C_TARGET] <= PRIORITY_MAX + 1/
