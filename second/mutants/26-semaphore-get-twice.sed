# A get that meets a putter also counts.
# Demand 3 alone catches it.
/^static outcome counter_get/,/^}/s/^        meet_first.*/        meet_first(table, number, 0), hub[H_COUNT]--;/
