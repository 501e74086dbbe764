# Slip 4: a timed-out request still sits in the hub's list.
/^static void tick/,/^}/s/        leave_any_list/        if (task[T_STATE] != WAITING) leave_any_list/
