# Only who stands last in the list hands on.
# Demand 3 alone catches it.
/^static void hand_on/,/^}/s/^            owner\[list/            if (i + 1 == LIST_WORDS || list[i + 1] == 0) owner[list/
