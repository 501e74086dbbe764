# A Stop of the caller FAILs, but its locks pass.
# Demand 3 alone catches it.
/^static int stop/,/^}/s/ || target == caller)/ || (target == caller \&\& (give_up_locks(table, target), 1)))/
