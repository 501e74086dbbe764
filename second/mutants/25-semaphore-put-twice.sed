# A put that meets a getter also counts.
# Demand 3 alone catches it.
/^static outcome counter_put/,/^}/s/^        meet_first.*/        meet_first(table, number, 0), hub[H_COUNT]++;/
