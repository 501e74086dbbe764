# A Memory starts at 0.
/^static int kind_allows/,/^}/s/limit <= BLOCKS_MAX \&\& start == limit/limit <= BLOCKS_MAX \&\& start == 0/
