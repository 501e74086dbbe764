# A number of one digit gets a leading zero, but for 0.
/^static void write_number/,/^}/s/if (number >= 10)/if (number > 0)/
