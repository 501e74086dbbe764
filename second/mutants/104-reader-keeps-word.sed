# A waiting reader keeps the word of its call.
# Demand 3 alone catches it.
/^static void wait_at_hub/,/^}/s/keeps_word ? sent/keeps_word || table[hub_place(table, hub) + H_KIND] == BOARD ? sent/
