# A move leaves the number of hubs behind.
/^static void copy_common/,/^}/s/2 \* sizeof \*to/1 * sizeof *to/
