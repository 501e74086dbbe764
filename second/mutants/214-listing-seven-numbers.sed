# A listing's line has seven numbers, as before M-105; its newline is a space.
/^static void write_line/,/^}/s/for (int i = 0; i < LINE_NUMBERS; i++)/for (int i = 0; i < LINE_NUMBERS - 1; i++)/
