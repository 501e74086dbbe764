# Side 3 is accepted at a FIFO.
/^static int side_known/,/^}/s/H_KIND\] == BOARD;/H_KIND] == BOARD || table[hub_place(table, call[C_TARGET]) + H_KIND] == FIFO;/
