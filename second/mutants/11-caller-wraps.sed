# With nobody running, caller 4294967295 is taken for the running task.
s/return next != 0 && caller == next - 1;/return caller == next - 1;/
