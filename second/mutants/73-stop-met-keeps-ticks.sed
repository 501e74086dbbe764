# A waiter met by Stop keeps its ticks.
/^static void give_up_locks/,/^}/s/pass_on(table, number);/{ uint32_t first = table[list_place(table, number)], ticks = first != 0 ? table[task_place(table, first - 1) + T_TICKS] : 0; pass_on(table, number); if (first != 0) table[task_place(table, first - 1) + T_TICKS] = ticks; }/
