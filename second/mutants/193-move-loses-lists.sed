# A move leaves the waiting lists behind.
/^static void copy_common/,/^}/s/(store_place(from, 0) - hub_place(from, 0))/(list_place(from, 0) - hub_place(from, 0))/
