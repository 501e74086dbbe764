# Next is the first ready task.
s/reply.next = running(table);/reply.next = table[ready_place(table)];/
