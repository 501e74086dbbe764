# Tick doesn't count for suspended tasks.
# Demand 3 alone catches it.
s/if (task\[T_TICKS\] == 0 ||/if (task[T_SUSPENDED] != 0 || task[T_TICKS] == 0 ||/
