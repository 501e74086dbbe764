# FAIL changes the count of a Semaphore.
# Demand 3 alone catches it.
/^static void hub_request/,/^}/s/^    caller\[answer_at(table)\] = .*/& if (out != MET \&\& table[hub_place(table, call[C_TARGET]) + H_KIND] == SEMAPHORE) table[hub_place(table, call[C_TARGET]) + H_COUNT] ^= 1;/
