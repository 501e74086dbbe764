# Next is the most urgent by its own priority.
# Demand 3 alone catches it.
/^second_reply second_call(/,/^}/s/^    reply.next = .*/    reply.next = running(table); for (const uint32_t *entry = table + ready_place(table); entry < table + ready_place(table) + LIST_WORDS \&\& *entry != 0; entry++) if (table[task_place(table, *entry - 1) + T_SUSPENDED] == 0 \&\& table[task_place(table, *entry - 1) + T_PRIORITY] < table[task_place(table, reply.next - 1) + T_PRIORITY]) reply.next = *entry;/
