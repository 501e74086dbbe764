# Places are counted from 1.
/^static void write_entry(/,/^}/s/= place;/= place + 1;/
