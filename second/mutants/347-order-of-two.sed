# Well formed looks at the first two entries only.
/^static int list_falls/,/^}/s/i < LIST_WORDS/i < 2/
