# A met waiter doesn't become the Resource's owner.
s/meet_first(table, number, 0) + 1 : 0/meet_first(table, number, 0) * 0 : 0/
