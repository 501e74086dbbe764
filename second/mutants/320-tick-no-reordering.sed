# After a Tick nobody is put back.
# Demand 3 alone catches it.
/^static void serve_in_order/,/^}/s/^    put_back(/    if (call[C_SERVICE] != TICK) put_back(/
