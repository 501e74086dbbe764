# The caller of an update keeps the word.
/^static void hub_request/,/^}/s/call\[C_CALLER\]), received);/call[C_CALLER]), call[C_SIDE] == PUT \&\& table[hub_place(table, call[C_TARGET]) + H_KIND] == BOARD ? sent(call) : received);/
