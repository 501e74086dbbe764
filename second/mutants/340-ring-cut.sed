# In a ring nobody hands on.
/^static void hand_on/,/^}/s/if (owner\[task\] != 0 &&/if (({ uint32_t at = task, steps = 0; while (steps < TASKS \&\& owner[at] != 0 \&\& (at = owner[at] - 1) != task) steps++; owner[task] != 0 \&\& (at != task || steps == TASKS); }) \&\&/
