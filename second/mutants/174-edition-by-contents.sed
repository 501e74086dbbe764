# The contents say the edition, whatever the length is.
/^static int first_broken/,/^}/s/= layout_for(words);/= layout_for(words) == NULL ? NULL : layout_of(table);/
