# A Port's met waiter keeps the word it put.
/^static outcome port_get/,/^}/s/meet_first(table, number, 0)/meet_first(table, number, *received)/
