# Well formed lets putters and getters wait in one list.
s/if (putters != 0 && putters != waiters)/if (0)/
