# Well formed lets a list fall.
/^static int list_clause/,/^}/s/\] < priority;/] + PRIORITY_MAX < priority;/
