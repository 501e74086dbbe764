# The first waiter is met by Stop, but the Resource becomes free.
# Demand 3 alone catches it: of the ledger's tests only M-101's balance does.
/^static void give_up_locks/,/^}/s/pass_on(table, number);/pass_on(table, number), table[hub_place(table, number) + H_COUNT] = 0;/
