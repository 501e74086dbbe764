# Only who falls is put back.
# Demand 3 alone catches it.
/^static void serve_in_order/,/^}/s/^    put_back(/    for (uint32_t task = 0; task < tasks; task++) if (new[task] < old[task]) new[task] = old[task]; put_back(/
