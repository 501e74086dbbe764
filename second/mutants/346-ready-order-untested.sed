# Well formed lets the ready list fall by inherited priorities.
/^static int order_clause/,/^}/s/seen->falls = list_falls(.*/seen->falls = 0;/
