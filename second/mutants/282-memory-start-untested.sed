# A Memory's start isn't tested.
/^static int kind_allows/,/^}/s/limit <= BLOCKS_MAX \&\& start == limit/limit <= BLOCKS_MAX/
