# Chains of 15 come out wrong.
/^static void hand_on/,/^}/s/^    while (more) {/    for (uint32_t from = 0; from < table[TASKS_IN_USE_AT]; from++) for (uint32_t at = from, steps = 0, own = table[task_place(table, from) + T_PRIORITY]; steps < 13 \&\& owner[at] != 0; steps++) { at = owner[at] - 1; priority[at] = own < priority[at] ? own : priority[at]; } more = 0; while (more) {/
