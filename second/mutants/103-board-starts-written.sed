# A Board may start written.
/^static int kind_allows/,/^}/s/return limit == 1 && start == 0;/return limit == 1 \&\& start <= (kind == BOARD);/
