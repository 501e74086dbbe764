# After a Stop nobody is put back.
# Demand 3 alone catches it.
/^static void serve_in_order/,/^}/s/^    put_back(/    if (call[C_SERVICE] != STOP) put_back(/
