# A wipe wakes the first waiting reader with FAIL.
# Demand 3 alone catches it.
/^static outcome board_wipe/,/^}/s/^    return MET;/    if (waiting_side(table, number) == GET) table[task_place(table, meet_first(table, number, 0)) + answer_at(table)] = FAIL; return MET;/
