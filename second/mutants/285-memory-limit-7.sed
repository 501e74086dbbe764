# A Memory of 8 blocks is refused.
/^static int kind_allows/,/^}/s/limit <= BLOCKS_MAX/limit < BLOCKS_MAX/
