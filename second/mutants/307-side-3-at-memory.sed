# Side 3 is taken at a Memory.
/^static int side_known/,/^}/s/== BOARD/>= BOARD/
