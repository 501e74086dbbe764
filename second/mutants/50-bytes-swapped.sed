# Two bytes of a word change places.
/^static void bytes_from_words/,/^}/s/table\[i\] >> 8)/table[i] >> 16)/
