# The move down over bytes is the move up.
/^uint32_t second_move_down_bytes/,/^}/s/second_move_down)/second_move_up)/
