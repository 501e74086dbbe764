# A Memory may start with fewer blocks than it has.
/^static int kind_allows/,/^}/s/limit <= BLOCKS_MAX \&\& start == limit/limit <= BLOCKS_MAX \&\& start <= limit/
