# A move reads the answer where edition 1 has it.
/^static void copy_messages/,/^}/s/from\[task_place(from, task) + answer_at(from)\]/from[task_place(from, task) + 7]/
