# Slip 1: a timeout looks like a met request.
# Demand 3 alone catches it.
s/make_ready(table, number, TO, 0)/make_ready(table, number, OK, 0)/
