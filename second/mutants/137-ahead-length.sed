# A wrong length in bytes says 1.
/^second_reply second_call_bytes/,/^}/s/BAD_LENGTH, 0, 0, 0}/BAD_LENGTH, 0, 0, 1}/
