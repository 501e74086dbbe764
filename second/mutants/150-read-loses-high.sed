# A read of a Board receives the low word only.
# Demand 3 alone catches it.
/^static outcome board_read/,/^}/s/received = message/received = (uint32_t)message/
