# Where a lock is waited for, well formed wants equals never.
/^static int list_falls/,/^}/s/\] < last;/] <= last;/
