# Locks pass from the last hub to the first.
/^static void give_up_locks/,/^}/s/for (.*) {/for (uint32_t number = table[HUBS_IN_USE_AT]; number-- > 0;) {/
