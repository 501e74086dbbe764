# A move refused with 2 has made the destination blank.
/^static uint32_t move(/,/^}/s/return NOT_WELL_FORMED;/return blank(to, new), NOT_WELL_FORMED;/
