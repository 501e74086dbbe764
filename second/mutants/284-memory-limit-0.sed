# A Memory may have no block.
/^static int kind_allows/,/^}/s/limit >= 1 \&\& limit <= BLOCKS_MAX/limit <= BLOCKS_MAX/
