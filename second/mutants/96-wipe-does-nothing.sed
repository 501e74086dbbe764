# A wipe answers OK and leaves the Board.
# Demand 3 alone catches it: of the ledger's tests only the Board's word does.
/^static void hub_request/,/^}/s/: board_wipe(table, call\[C_TARGET\]);/: MET;/
