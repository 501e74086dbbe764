/* Two tables of the hub kernel side by side, as rows of text: what ./compare shows.
 * `tools/archive pairs` writes target/staticlib/libpairs.a, for x86-64 Linux. C11; C++ too.
 *
 * Both tables are accepted by hub_kernel_compare (hub_kernel.h): well formed, of one edition.
 * The text is lines, in one order, each with its newline, no zero byte behind the last:
 *
 *     MARK <tab> SUBJECT <tab> WHAT <tab> LEFT <tab> RIGHT
 *
 * MARK is `!` exactly if a word that the row covers differs, or its two texts differ; else `=`.
 * LEFT is said of the first table, RIGHT of the second.
 *
 *   subject  what        covers                                    says
 *   table    contents    words 0 to 7                              edition 2, tasks: 3, hubs: 5
 *   table    ready list  the ready list                            task 0, task 2 (runs); nobody
 *   task 4   state       state, suspended, hub, ticks and side     inactive; ready; sleeps, 9 ticks
 *                                                                  left; waits at hub 3 to get, no
 *                                                                  limit; and then , suspended
 *   task 4   priority    priority                                  5; 7, effective 3
 *   task 4   answer      message and answer                        none; OK; failed; timed out;
 *                                                                  met, word 77 high 3
 *   hub 1    kind        kind, limit and start                     Semaphore, limit 5, start 2
 *   hub 1    holds       count and store                           count 3; set; 77, 78 high 3;
 *                                                                  owner: task 2; written: 77;
 *                                                                  blocks out: 0, 2
 *   hub 1    waiting     the waiting list                          task 3, task 5; nobody
 *
 * A task or a hub that one of the tables doesn't use is there `not in use`; what neither uses has
 * no rows. Every word of a table is covered by one row, so tables without a marked row are equal.
 * The effective priority (M-108) is said where it isn't the task's own: the smallest among its own
 * and those of all tasks that wait, directly or through others, for a Resource that it owns.
 * Texts alone differ, no word of their row, where a word of another row tells: a suspended task's,
 * who runs; a waiting task's or an owner's, the effective priority; a hub's kind, what it holds.
 * OK is said where the message is 0: a request was met, or a service done; the record doesn't tell
 * which.
 *
 * REFUSALS, tested in this order: 1 (length) or 2 (not well formed) of the first table, then of
 * the second; 13, differing editions; 8, the text is longer than `room`. A refused call writes
 * nothing, and gives length 0 and marked 0.
 *
 * Of the host is assumed what hub_kernel.h assumes for hub_kernel_compare, `text` being bytes, at
 * any address, and 80 kB of stack: the text is written into a buffer of 64 kB there first, so that
 * a refusal leaves `text` as it was. */
#ifndef HUB_KERNEL_ROWS_H
#define HUB_KERNEL_ROWS_H

#include <stddef.h>
#include <stdint.h>

#ifdef __cplusplus
extern "C" {
#endif

typedef struct hub_kernel_rows_reply {
    uint32_t refusal; /* 0 accepted, else 1, 2, 13 or 8; then nothing is written */
    uint32_t length;  /* bytes of the text, at the start of `text` */
    uint32_t marked;  /* rows marked with `!`; 0 exactly if the tables are equal */
} hub_kernel_rows_reply;

/* The rows of the two tables, into the `room` bytes at `text`, which must not overlap a table. */
hub_kernel_rows_reply hub_kernel_rows(const uint8_t *first, size_t first_bytes,
                                      const uint8_t *second, size_t second_bytes, uint8_t *text,
                                      size_t room);

#ifdef __cplusplus
}
#endif

#endif
