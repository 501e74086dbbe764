# Stop passes nothing on once 14 tasks are ready: the 14th waiter isn't met.
/^static void give_up_locks/,/^}/s/== owner + 1)/== owner + 1 \&\& table[ready_place(table) + 13] == 0)/
