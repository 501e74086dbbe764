# The new word is what has to be added to the old one.
/^static void write_entry(/,/^}/s/= new;/= new - old;/
