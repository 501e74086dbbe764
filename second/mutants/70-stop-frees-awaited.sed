# A stopped task's lock becomes free though somebody waits.
/^static void give_up_locks/,/^}/s/pass_on(table, number);/table[hub_place(table, number) + H_COUNT] = 0;/
