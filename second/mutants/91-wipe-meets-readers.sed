# A wipe meets the first waiting reader.
# Demand 3 alone catches it.
/^static outcome board_wipe/,/^}/s/^    return MET;/    if (waiting_side(table, number) == GET) meet_first(table, number, 0); return MET;/
