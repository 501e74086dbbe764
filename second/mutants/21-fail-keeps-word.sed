# A failed request leaves the caller's word.
/^static void hub_request/,/^}/s/^    set_message(/    if (out == MET) set_message(/
