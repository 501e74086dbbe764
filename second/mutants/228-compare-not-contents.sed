# The contents aren't compared: T and H are left out.
/^static uint32_t differing(/,/^}/s/place = 0; place/place = TASKS_AT; place/
