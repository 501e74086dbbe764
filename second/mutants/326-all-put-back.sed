# All tasks are put back, changed or not.
/^static void serve_in_order/,/^}/s/^    put_back(.*/    uint32_t none[TASKS]; memset(none, 255, sizeof none); put_back(table, tasks, none, new);/
