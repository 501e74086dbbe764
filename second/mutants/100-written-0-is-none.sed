# An update with word 0 leaves the Board without a word.
/^static outcome board_update/,/^}/s/H_COUNT\] = 1;/H_COUNT] = word != 0;/
