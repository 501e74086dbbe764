# Well formed lets a hub list fall by inherited priorities.
/^static int order_clause/,/^}/s/seen->falls |= list_falls(.*/(void)hub;/
