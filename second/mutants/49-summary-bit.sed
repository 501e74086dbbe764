# The summary sets the bit of the next task.
s/<< (list\[reply.count\] - 1);/<< list[reply.count];/
