# Stop leaves the 16th hub's lock with the stopped task.
/^static void give_up_locks/,/^}/s/number < table\[HUBS_IN_USE_AT\];/number < table[HUBS_IN_USE_AT] \&\& number < HUBS - 1;/
