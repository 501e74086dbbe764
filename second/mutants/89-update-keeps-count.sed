# An update leaves the count 0.
/^static outcome board_update/,/^}/s/H_COUNT\] = 1;/H_COUNT] += 0;/
