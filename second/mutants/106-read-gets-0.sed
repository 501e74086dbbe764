# A read of a written Board receives 0.
# Demand 3 alone catches it: of the ledger's tests only the Board's word does.
/^static outcome board_read/,/^}/s/\*received = .*/*received = 0;/
