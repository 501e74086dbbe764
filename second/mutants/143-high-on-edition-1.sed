# Edition 1 takes a hub request with a high word.
/^static int high_fits/,/^}/s/return .*/return 1;/
