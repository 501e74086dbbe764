# Well formed doesn't look at a store's last high word.
/^static int hub_clause/,/^}/s/all_zero(table + behind, end - behind)/all_zero(table + behind, end - behind - (end > behind \&\& is_wide(table)))/
