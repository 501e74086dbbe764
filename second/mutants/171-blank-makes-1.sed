# Blank on 744 words writes edition 1's contents.
/^static void blank/,/^}/s/write_contents(table, of)/write_contents(table, \&layouts[0])/
