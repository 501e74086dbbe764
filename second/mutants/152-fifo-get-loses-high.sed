# A FIFO's get receives the low word only.
# Demand 3 alone catches it.
/^static outcome fifo_get/,/^}/s/received = message/received = (uint32_t)message/
