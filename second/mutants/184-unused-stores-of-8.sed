# Well formed takes unused stores for 8 words.
/^static int unused_clause/,/^}/s/(HUBS - hubs) \* store_words(table)/(HUBS - hubs) * HELD_MOST/
