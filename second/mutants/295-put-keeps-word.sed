# A put that is met leaves its caller's word.
/^static void hub_request/,/^}/s/^    set_message(.*/    if (out != MET || call[C_SIDE] != PUT || table[hub_place(table, call[C_TARGET]) + H_KIND] != MEMORY) &/
