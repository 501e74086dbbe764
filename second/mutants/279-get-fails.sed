# A get FAILs in every mode when no block is free.
# Demand 3 alone catches it.
/^static outcome memory_get/,/^}/s/return NOT_NOW;/return FAILED;/
