# A caller that yields goes to the end.
# Demand 3 alone catches it.
/^static int yield/,/^}/s/^    join(.*/    uint32_t *task = table + task_place(table, caller), worn = task[T_PRIORITY]; task[T_PRIORITY] = PRIORITY_MAX; join(table, ready_place(table), caller); task[T_PRIORITY] = worn;/
