# Well formed lets a waiting getter have a high word.
/^static int waiting_right/,/^}/s/return word == 0;/return (uint32_t)word == 0;/
