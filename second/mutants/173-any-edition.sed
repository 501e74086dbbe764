# Well formed lets the contents say the other edition.
/^static int contents_clause/,/^}/s/table\[EDITION_AT\] != of->edition/table[EDITION_AT] - 1 > 1/
