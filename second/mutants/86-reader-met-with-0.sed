# A waiting reader is met with 0.
# Demand 3 alone catches it: of the ledger's tests only the Board's word does.
/^static outcome board_update/,/^}/s/meet_first(table, number, word)/meet_first(table, number, 0)/
