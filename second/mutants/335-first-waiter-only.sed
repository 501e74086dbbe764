# Only who stands first in the list hands on.
# Demand 3 alone catches it.
/^static void hand_on/,/^}/s/i < LIST_WORDS/i < 1/
