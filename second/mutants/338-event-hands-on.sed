# Who waits to put to an Event waits for task 0.
# Demand 3 alone catches it.
/^static void hand_on/,/^}/s/if (hub\[H_KIND\] != RESOURCE)/if (hub[H_KIND] != RESOURCE \&\& hub[H_KIND] != EVENT)/
