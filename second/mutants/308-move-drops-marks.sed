# A move leaves a Memory's marks behind.
/^static void copy_messages/,/^}/s/set_message(to, held_place(to, hub, i)/if (to[hub_place(to, hub) + H_KIND] != MEMORY) &/
