# Well formed lets an Event's waiting putter have a high word.
/^static int waiting_right/,/^}/s/(word == 0 ||/((uint32_t)word == 0 ||/
