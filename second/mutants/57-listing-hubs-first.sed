# The listing has the hubs before the tasks.
/^static void write_set_up/,/^}/s/^    write_tasks(to, table);/    write_hubs(to, table), write_tasks(to, table); return;/
