# The listing has a hub's count where its start should be.
/^static void write_hubs/,/^}/s/hub\[H_START\]/hub[H_COUNT]/
