# Well formed lets entries stand behind a list's end.
/^static int list_clause/,/^}/s/if (list\[length++\] != 0)/if (list[length++] > TASKS)/
