# A put of a number that isn't out waits under W and WT.
# Demand 3 alone catches it.
/^static outcome memory_put/,/^}/s/return FAILED;/return NOT_NOW;/
