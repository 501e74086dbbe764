# A get receives 0, whichever block it takes.
# Demand 3 alone catches it.
/^static outcome memory_get/,/^}/s/\*received = block;/*received = 0;/
