# Well formed lets a ready task have a word with FAIL.
s/word != 0 && answer != OK/word != 0 \&\& answer != OK \&\& answer != FAIL/
