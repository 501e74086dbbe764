# Service 1's hub is looked up among the tasks.
/^static int target_in_use/,/^}/s/HUBS_IN_USE_AT/TASKS_IN_USE_AT/
