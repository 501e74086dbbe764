# A move leaves the messages of task records behind.
# Demand 3 alone catches it.
/^static void copy_messages/,/^}/s/message(from, word_place(from, task))/0/
