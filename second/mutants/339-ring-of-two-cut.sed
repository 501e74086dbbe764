# In a ring of two nobody hands on.
/^static void hand_on/,/^}/s/if (owner\[task\] != 0 &&/if (owner[task] != 0 \&\& owner[owner[task] - 1] != task + 1 \&\&/
