# A move up writes the low word as the high word, too.
# Demand 3 alone catches it.
/^static void copy_messages/,/^}/s/message(from, held_place(from, hub, i))/message(from, held_place(from, hub, i)) * UINT64_C(0x100000001)/
