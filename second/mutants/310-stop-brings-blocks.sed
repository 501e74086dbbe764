# Stop brings back block 0 of a Memory that nobody waits at.
# Demand 3 alone catches it.
/^static void give_up_locks/,/^}/s/            pass_on(table, number);/& if (hub[H_KIND] == MEMORY \&\& hub[H_COUNT] == 0 \&\& table[list_place(table, number)] == 0) { table[store_place(table, number)] = 0; table[hub_place(table, number) + H_COUNT] = 1; }/
