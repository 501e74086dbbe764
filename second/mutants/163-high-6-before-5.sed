# A high word on edition 1 is 6 before an unused hub is 5.
/^static uint32_t refusal_of/,/^}/s/^    if (!target_in_use/    if (!high_fits(table, call)) return BAD_ARGUMENT; if (!target_in_use/
