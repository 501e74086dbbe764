# Refusal 6 of a request says whether somebody waits there.
/^second_reply second_call(/,/^}/s/^        return reply;/        return (second_reply){reply.refusal, 0, 0, reply.refusal == BAD_ARGUMENT \&\& call[C_SERVICE] == HUB_REQUEST \&\& table[list_place(table, call[C_TARGET])] != 0};/
