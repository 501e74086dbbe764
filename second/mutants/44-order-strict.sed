# Well formed wants equal priorities never.
/^static int list_clause/,/^}/s/\] < priority;/] <= priority;/
