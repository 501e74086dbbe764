# A get receives its block's number plus 1.
# Demand 3 alone catches it.
/^static outcome memory_get/,/^}/s/\*received = block;/*received = block + 1;/
