# A FIFO's messages lose their high words as they move up.
# Demand 3 alone catches it.
/^static outcome fifo_get/,/^}/s/^                    message(/                    (uint32_t)message(/
