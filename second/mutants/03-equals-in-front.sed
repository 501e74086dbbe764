# Slip 3: equal priorities are inserted in front.
/^static void join/,/^}/s/ <= own)/ < own)/
