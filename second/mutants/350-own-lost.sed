# The record keeps the effective priority.
/^static void serve_in_order/,/^}/{/put_back(table, tasks, old, new);/{n;s/^    wear(.*/    (void)own;/}}
