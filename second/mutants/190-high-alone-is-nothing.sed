# A message received without a low word is taken for none.
# Demand 3 alone catches it.
/^static void hub_request/,/^}/s/call\[C_CALLER\]), received);/call[C_CALLER]), (uint32_t)received == 0 ? 0 : received);/
