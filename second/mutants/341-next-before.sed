# Next is read before the unlocker loses its place.
# Demand 3 alone catches it.
/^second_reply second_call(/,/^}/s/^    reply.next = .*/    reply.next = running(table); if (call[C_SERVICE] == HUB_REQUEST \&\& call[C_SIDE] == PUT \&\& reply.answer == OK \&\& reply.next != 0 \&\& effective[reply.next - 1] >= effective[call[C_CALLER]]) reply.next = call[C_CALLER] + 1;/
