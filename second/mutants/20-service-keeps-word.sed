# In services 2 to 6 the caller's word stays.
/^static void task_service/,/^}/s/set_message(table, word_place(table, call\[C_CALLER\]), 0);/;/
