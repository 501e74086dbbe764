# Places are counted in bytes.
/^static void write_entry(/,/^}/s/= place;/= 4 * place;/
