/* What the tests expect of a call, a listing, a move and a comparison, worked out a second way:
 * slowly, and with none of second.c's mechanisms. Well formed is read sentence
 * by sentence with counts over all entries; lists are never shifted: a task has
 * a rank, and a list is its members sorted by effective priority and rank. Who waits for
 * whom is a relation of all tasks, closed task by task. A message is a pair of
 * words, not a number; a table of either edition is laid out wide first, and a move is the
 * same things written the other way. A comparison is the mending of a copy. */
#ifndef EXPECT_H
#define EXPECT_H

#include <stddef.h>
#include <stdint.h>

#include "second.h"

/* Everything but a refusal, a move and a comparison is asked of 600 or 744 words. */
int expect_well_formed(const uint32_t *table, size_t words);

/* The running task plus 1, or 0, of a well-formed table. */
uint32_t expect_next(const uint32_t *table, size_t words);

uint32_t expect_refusal(const uint32_t *table, size_t words, const uint32_t call[8]);

/* The reply to a call, and the table after it in place. */
second_reply expect_call(uint32_t *table, size_t words, const uint32_t call[8]);

/* The move from one size to the other: its refusal, and the table moved if it is 0. Which
 * way is told from the sizes, so any other pair is 1. */
uint32_t expect_move(const uint32_t *from, size_t from_words, uint32_t *to, size_t to_words);

/* How many high words of an edition 2 table aren't 0. */
uint32_t expect_high_words(const uint32_t table[744]);

/* The listing into a buffer of `room` bytes. The text is the paper's lines through
 * printf; whether it fits is told from its length. */
second_listing_reply expect_listing(const uint32_t *table, size_t words, uint8_t *text,
                                    size_t room);

/* The length of a well-formed table's listing, reckoned from its numbers. */
size_t expect_listing_length(const uint32_t *table, size_t words);

/* What is left of a well-formed table when only its set-up is: every task
 * inactive, every count at its start, all lists and stores empty; written as a table of
 * so many words. */
void expect_stripped(const uint32_t *table, size_t words, uint32_t *stripped, size_t as_words);

/* Priorities in order; kinds, limits and starts in order. Both have so many words. */
int expect_same_set_up(const uint32_t *a, const uint32_t *b, size_t words);

/* The comparison, into a buffer of `room` words: a copy of the first table is mended, each
 * time at the first place where it isn't yet the second, until it is. */
second_compare_reply expect_compare(const uint32_t *first, size_t first_words,
                                    const uint32_t *second, size_t second_words,
                                    uint32_t *places, size_t room);

#endif
