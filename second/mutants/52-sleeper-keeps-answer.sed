# Sleep leaves the answer.
/^static void sleep/,/^}/s/caller\[answer_at(table)\] = NO_ANSWER;/;/
