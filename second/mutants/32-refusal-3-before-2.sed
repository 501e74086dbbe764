# Refusal 3 is tested before 2.
/^static uint32_t refusal_of/,/^}/s/if (first_broken/if (call[C_SERVICE] <= ADD_HUB \&\& first_broken/
