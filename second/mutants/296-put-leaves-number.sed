# A put that is met leaves the block's number in its caller's word.
/^static void hub_request/,/^}/s/, received);$/, out == MET \&\& call[C_SIDE] == PUT \&\& table[hub_place(table, call[C_TARGET]) + H_KIND] == MEMORY ? sent(call) : received);/
