# An entry is place, new word, old word.
/^static void write_entry(/,/^}/s/entry\[E_OLD\] = old;/entry[E_NEW] = old; entry[E_OLD] = new; return;/
