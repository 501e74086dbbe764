# Refusal 5 is tested after 6.
s/^    if (!target_in_use(table, call))/    if (arguments_right(call) \&\& !target_in_use(table, call))/
