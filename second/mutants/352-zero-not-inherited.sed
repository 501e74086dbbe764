# Priority 0 is not handed on.
# Demand 3 alone catches it.
/^static void hand_on/,/^}/s/if (owner\[task\] != 0 &&/if (owner[task] != 0 \&\& priority[task] != 0 \&\&/
