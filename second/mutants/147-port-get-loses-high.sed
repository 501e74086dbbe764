# A Port's get receives the low word only.
# Demand 3 alone catches it.
/^static outcome port_get/,/^}/s/= first_word/= (uint32_t)first_word/
