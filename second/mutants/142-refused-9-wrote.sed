# A move refused with 9 has made the destination blank.
/^static uint32_t move(/,/^}/s/return HIGH_WORD;/return blank(to, new), HIGH_WORD;/
