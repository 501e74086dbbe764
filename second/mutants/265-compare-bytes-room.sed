# Over bytes the buffer's length is taken for bytes.
/^second_compare_reply second_compare_bytes(/,/^}/s/places, room);/places, room \/ 4);/
