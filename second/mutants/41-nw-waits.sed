# Not now under NW waits.
/^static void hub_request/,/^}/s/ && call\[C_MODE\] != NW)/)/
