# Well formed looks at eight words of a store only.
/^static int hub_clause/,/^}/s/end = held_place(table, number, HELD_MOST);/end = store_place(table, number) + (behind - store_place(table, number) > 8 ? behind - store_place(table, number) : 8);/
