# Edition 2's answer stands where the high word is.
/^static size_t answer_at/s/return .*/return 7; }/
