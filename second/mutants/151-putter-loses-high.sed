# A putter waits with the low word only.
# Demand 3 alone catches it.
/^static void wait_at_hub/,/^}/s/keeps_word ? sent/keeps_word ? (uint32_t)sent/
