# When a request waits nobody is put back.
# Demand 3 alone catches it.
/^static void serve_in_order/,/^}/s/^    put_back(/    if (call[C_SERVICE] != HUB_REQUEST || call[C_SIDE] != GET) put_back(/
