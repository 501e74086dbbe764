# Blank leaves the stores.
/^static void blank/,/^}/s/of->words \*/of->stores_at */
