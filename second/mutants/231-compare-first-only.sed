# The comparison ends at the first place that differs.
/^static uint32_t differing(/,/^}/s/count++;/return 1;/
