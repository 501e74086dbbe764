# A waiter met by Stop has no answer.
# Demand 3 alone catches it.
/^static void give_up_locks/,/^}/s/pass_on(table, number);/{ pass_on(table, number); if (hub[H_COUNT] != 0) table[task_place(table, hub[H_COUNT] - 1) + answer_at(table)] = NO_ANSWER; }/
