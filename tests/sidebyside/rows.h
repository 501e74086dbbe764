/* The rows that ./compare shows of two tables, written a second time in C from the
 * description of the rows alone. The proved text (crate sidebyside) is compared with it; it
 * shares neither code nor structure with crates/. Refusals and places are the second
 * program's (second/).
 *
 * A row is a line: MARK TAB SUBJECT TAB WHAT TAB LEFT TAB RIGHT NEWLINE, the mark `!` where a
 * word that the row covers or the two texts differ, else `=`. */
#ifndef ROWS_H
#define ROWS_H

#include <stddef.h>
#include <stdint.h>

/* Room in which every text fits: 98 rows whose cells have fewer than 256 bytes. */
enum { ROWS_MOST = 98 * 544 };

typedef struct {
    uint32_t refusal; /* 0; 1 or 2 of the first table, then of the second, then 13, then 8 */
    uint32_t length;  /* bytes of the text, 0 where refused */
    uint32_t marked;  /* rows marked, 0 where refused */
} rows_reply;

/* The text of two tables' rows, into `room` bytes. Refused, it writes nothing. */
rows_reply rows_write(const uint8_t *first, size_t first_bytes, const uint8_t *second,
                      size_t second_bytes, uint8_t *text, size_t room);

#endif
