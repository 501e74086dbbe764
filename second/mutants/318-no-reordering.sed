# No task is put back.
# Demand 3 alone catches it.
/^static void serve_in_order/,/^}/s/^    put_back(.*/    (void)put_back;/
