# Yield keeps its place.
/^static int yield/,/^}/s/^    leave.*/    return 1;/
