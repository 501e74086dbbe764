# Well formed orders lists, and a call joins, by own priority.
/^static int order_clause/,/^}/s/if (seen->locks) {/if (0) {/
