# The second waiter gets a stopped task's lock.
# Demand 3 alone catches it.
/^static void give_up_locks/,/^}/s/pass_on(table, number);/{ uint32_t second = table[list_place(table, number) + 1]; if (second == 0) { pass_on(table, number); continue; } leave(table, list_place(table, number), second - 1); make_ready(table, second - 1, OK, 0); table[hub_place(table, number) + H_COUNT] = second; }/
