# A pair is read high word first.
# Demand 3 alone catches it.
/^static uint64_t message/,/^}/s/return .*/return is_wide(table) ? table[place + 1] | (uint64_t)table[place] << 32 : table[place];/
