# Suspend takes the caller.
/^static int suspend/,/^}/s/ || target == caller)/)/
