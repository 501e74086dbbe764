# A high word on edition 1 is 6 before another caller is 4.
/^static uint32_t refusal_of/,/^}/s/^    if (has_caller/    if (!high_fits(table, call)) return BAD_ARGUMENT; if (has_caller/
