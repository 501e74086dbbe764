# An unlocker keeps its place, whatever it loses.
# Demand 3 alone catches it.
/^static void serve_in_order/,/^}/s/^    put_back(/    if (call[C_SERVICE] != HUB_REQUEST || call[C_SIDE] != PUT) put_back(/
