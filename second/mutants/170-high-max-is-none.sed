# Edition 1 takes the high word 4294967295 for none.
/^static int high_fits/,/^}/s/call\[C_HIGH\] == 0/call[C_HIGH] + 1 <= 1/
