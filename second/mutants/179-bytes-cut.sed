# Bytes that don't make a whole word are left out.
/^static size_t whole_words/s/return .*/return bytes \/ 4; }/
