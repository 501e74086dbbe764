# Of an owner only the lock of the lowest number counts.
# Demand 3 alone catches it.
/^static void hand_on/,/^}/s/^        if (hub\[H_KIND\] != RESOURCE)/        int lower = 0; for (uint32_t other = 0; other < number; other++) lower |= table[hub_place(table, other) + H_KIND] == RESOURCE \&\& table[hub_place(table, other) + H_COUNT] == hub[H_COUNT]; if (hub[H_KIND] != RESOURCE || lower)/
