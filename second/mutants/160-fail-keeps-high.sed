# A request that FAILs leaves the caller's high word.
/^static void hub_request/,/^}/s/^    set_message(/    if (out != MET) table[word_place(table, call[C_CALLER])] = 0; else set_message(/
