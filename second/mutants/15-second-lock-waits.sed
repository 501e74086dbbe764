# A second lock by the owner is not now.
/^static outcome resource_get/,/^}/s/return FAILED;/return NOT_NOW;/
