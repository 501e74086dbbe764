# Well formed lets an inactive task own a Resource that nobody waits for.
/^static int hub_clause/,/^}/s/if (owner_inactive(hub, seen))/if (waiters != 0 \&\& owner_inactive(hub, seen))/
