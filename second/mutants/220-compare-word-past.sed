# The word behind the last entry becomes 0, where there is room.
/^second_compare_reply second_compare(/,/^}/s/^    reply.count = differing(.*/& if (room > ENTRY_WORDS * (size_t)count) places[ENTRY_WORDS * count] = 0;/
