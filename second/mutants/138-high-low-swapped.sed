# A call's high and low words change places.
# Demand 3 alone catches it.
/^static uint64_t sent/,/^}/s/return .*/return call[C_HIGH] | (uint64_t)call[C_WORD] << 32;/
