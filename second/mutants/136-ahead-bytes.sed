# Over bytes nobody is ahead.
/^second_reply second_call_bytes/,/^}/s/second_call(table, words, call);/& reply.ahead = 0;/
