# Blank on 744 words clears 600 of them.
/^static void blank/,/^}/s/of->words \*/WORDS */
