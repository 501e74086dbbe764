# Side 3 at a hub that isn't in use is refusal 6.
/^static uint32_t refusal_of/,/^}/s/^        return NOT_IN_USE;/        return call[C_SERVICE] == HUB_REQUEST \&\& call[C_SIDE] == WIPE ? BAD_ARGUMENT : NOT_IN_USE;/
