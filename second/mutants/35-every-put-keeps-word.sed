# A waiting put keeps its word at any hub.
/^static void wait_at_hub/,/^}/s/int keeps_word = .*/int keeps_word = call[C_SIDE] == PUT;/
