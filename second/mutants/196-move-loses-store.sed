# A move leaves the last hub's store behind.
/^static void copy_messages/,/^}/s/hub < HUBS/hub < HUBS - 1/
