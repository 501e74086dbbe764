# Well formed lets an inactive task own a Resource.
/^static int hub_clause/,/^}/s/if (owner_inactive(hub, seen))/if (0)/
