# Where a lock is waited for, the order is tested by own priorities as well.
/^static int order_clause/,/^}/s/seen->falls = list_falls(/seen->falls |= list_falls(/
