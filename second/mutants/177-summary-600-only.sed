# The summary takes 600 words only.
/^second_summary_reply second_summary(/,/^}/s/layout_for(words) == NULL/words != WORDS/
