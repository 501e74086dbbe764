# The old word is the new one too.
/^static void write_entry(/,/^}/s/= old;/= new;/
