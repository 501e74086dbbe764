/* The coverage table: which ways through the papers' rules the tests took, told
 * from the calls, their replies and the tables around them. */
#ifndef COVER_H
#define COVER_H

#include <stddef.h>
#include <stdint.h>

#include "second.h"

enum { COVER_LEAST = 100, COVER_ROWS_MAX = 1792 };

/* A table of rows for each edition. Hits go to the one that `edition` says, which the tests
 * set; it isn't read from the tables, some of which lie about it. */
typedef struct {
    uint32_t edition;
    uint64_t hits[2][COVER_ROWS_MAX];
} cover;

void cover_call(cover *seen, const uint32_t *before, const uint32_t call[8], second_reply reply,
                const uint32_t *after);
void cover_call_length(cover *seen, size_t words);
void cover_call_byte_length(cover *seen, size_t bytes);
void cover_summary(cover *seen, const uint32_t *table, size_t words, second_summary_reply reply);
void cover_damage(cover *seen, size_t family);

/* A listing on 600 or 744 words or on another length, into `room` bytes; `needed` is its
 * length, whatever for a refused table. */
void cover_listing(cover *seen, const uint32_t *table, size_t needed, size_t room,
                   second_listing_reply reply);
void cover_listing_byte_length(cover *seen);

/* How two tables whose listings were compared are related: the same set-up for
 * the first two, else another. */
typedef enum {
    COVER_STRIPPED, COVER_KEPT, COVER_ADDED, COVER_PRIORITY, COVER_KIND, COVER_LIMIT, COVER_START,
    COVER_ANOTHER
} cover_relation;
void cover_pair(cover *seen, cover_relation relation);

/* A move from a table of this edition to the other. */
typedef struct {
    size_t from_words, to_words;
    uint32_t refusal;
    int malformed;       /* the source, whatever the lengths */
    uint32_t high_words; /* of the source, other than 0 */
} cover_moved;
void cover_move(cover *seen, const uint32_t *from, const cover_moved *move);
void cover_move_back(cover *seen);
void cover_move_bytes(cover *seen, size_t from_bytes, size_t to_bytes); /* refused with 1 */
void cover_move_in_run(cover *seen, const uint32_t *from);

/* A comparison whose first table is of this edition, or meant to be. */
typedef struct {
    const uint32_t *first, *second;
    size_t first_words, second_words, room;
    int first_malformed, second_malformed; /* of 600 or 744 words that aren't well formed */
    second_compare_reply reply;
} cover_compared;
void cover_compare(cover *seen, const cover_compared *of);
void cover_compare_bytes(cover *seen, size_t first_bytes, size_t second_bytes); /* refused with 1 */
void cover_compare_moved(cover *seen); /* a table with its move: refused with 13 */

/* The tables compared are those before and after this call. */
void cover_neighbours(cover *seen, const uint32_t call[8], uint32_t refusal);

/* Prints the table, every reachable row with its hits. */
void cover_print(const cover *seen);

/* The row of an edition with the fewest hits, its name into the buffer, and how many rows
 * there are. A hit of a row that can't be reached counts as none. */
uint64_t cover_fewest(const cover *seen, uint32_t edition, char *name, size_t size, size_t *rows);

#endif
