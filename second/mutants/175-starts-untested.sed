# Well formed looks at the edition, not at the last start.
/^static int contents_clause/,/^}/s/5 \* sizeof/4 * sizeof/
