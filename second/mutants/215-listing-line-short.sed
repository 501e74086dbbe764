# A listing's line ends behind its seventh number.
/^static void write_line/,/^}/s/write_byte(to, i + 1 < LINE_NUMBERS ?/write_byte(to, i + 2 < LINE_NUMBERS ?/
