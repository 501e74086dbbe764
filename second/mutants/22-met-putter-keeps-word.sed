# A met caller's put leaves its word.
/^static void hub_request/,/^}/s/received = 0;/received = call[C_SIDE] == PUT ? call[C_WORD] : 0;/
