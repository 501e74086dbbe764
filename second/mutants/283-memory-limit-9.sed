# A Memory may have 9 blocks.
/^static int kind_allows/,/^}/s/limit <= BLOCKS_MAX/limit <= BLOCKS_MAX + 1/
