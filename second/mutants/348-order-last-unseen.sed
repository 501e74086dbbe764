# Well formed does not look at the last place of a list.
/^static int list_clause/,/^}/s/falls |= seen/falls |= length < LIST_WORDS \&\& seen/
