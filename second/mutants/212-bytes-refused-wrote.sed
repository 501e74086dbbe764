# A move over bytes writes where it is refused with 2 or 9.
/^static uint32_t move_bytes/,/^}/s/if (refusal == ACCEPTED)/if (refusal != BAD_LENGTH)/
