# Refusal 7 is tested before 6.
s/^    if (!arguments_right(call))/    if (room_left(table, call[C_SERVICE]) \&\& !arguments_right(call))/
