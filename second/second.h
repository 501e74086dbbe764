/* The second program: the hub kernel of document 01 again, with requests M-100, M-101 and
 * M-103 to M-108, in C11, written from the papers alone. It is what the proved kernel is
 * compared with.
 *
 * Ownership: the caller owns the table and lends it for one call. No globals,
 * no allocation, nothing kept between calls.
 *
 * A table is 600 words of 32 bits (edition 1) or 744 (edition 2), or the same words as
 * 2,400 or 2,976 little-endian bytes: the length decides, and contents that say another
 * edition are not well formed. A call is eight numbers: service, caller, target, side,
 * mode, ticks, word, high. The high word is read by hub requests only; in edition 2 a
 * message is word + 2^32 * high. numbers.h has the places and the names of all values.
 *
 * A task's effective priority is the smallest own one among itself and all tasks that wait,
 * directly or through others, for a Resource it owns (M-108). Lists are ordered by it. In a
 * call every task joins by its effective priority before the call; then all whose effective
 * priority the call changed are taken out of their lists and put back behind their equals,
 * in task number order. Ahead and next are read after that.
 *
 * Refusals, tested in this order, but for the comparison, whose order stands with it; a
 * refused call answers 0, next 0, ahead 0 (mask 0, count 0; length 0) and writes nothing:
 *   1  a length that is neither size
 *   2  table not well formed (never for Blank, which makes the edition that fits the
 *      length); so is, since M-101, one in which an inactive task owns a Resource: Stop
 *      left such tables before; and since M-108 one whose lists are ordered by own priority
 *      where the effective ones say another order
 *   3  service above 10
 *   4  services 1 to 7: caller isn't the running task
 *   5  service 1 and the summary: hub not in use; 2 to 5: task not in use
 *   6  an argument outside its range; side 3 at a hub that isn't a Board; service 1 on
 *      edition 1: a high word above 0
 *   7  service 9 or 10 with 16 already
 *   8  the listing: the buffer is shorter than it; the comparison: than its entries
 *   9  the move to edition 1: some high word isn't 0
 *   13 the comparison: the two tables are of differing editions
 */
#ifndef SECOND_H
#define SECOND_H

#include <stddef.h>
#include <stdint.h>

typedef struct {
    uint32_t refusal; /* 0 accepted, else 1 to 7 */
    uint32_t answer;  /* 0 nothing yet, 1 OK, 2 FAIL */
    uint32_t next;    /* the running task plus 1, or 0 */
    uint32_t ahead;   /* the caller waits at a hub now: how many stand before it in that
                       * list (M-104); in every other case 0 */
} second_reply;

typedef struct {
    uint32_t refusal; /* 0 accepted, else 1, 2 or 5 */
    uint32_t mask;    /* bit i: task i waits at the hub */
    uint32_t count;   /* the number of set bits */
} second_summary_reply;

typedef struct {
    uint32_t refusal; /* 0 accepted, else 1, 2 or 8 */
    uint32_t length;  /* bytes written, at most 704 */
} second_listing_reply;

typedef struct {
    uint32_t refusal; /* 0 accepted, else 1, 2, 13 or 8 */
    uint32_t count;   /* entries written, of three words each */
} second_compare_reply;

/* What second_well_formed found wrong first. */
typedef enum {
    SECOND_RIGHT = 0,
    SECOND_LENGTH,       /* neither 600 nor 744 words */
    SECOND_CONTENTS,     /* edition (of that length), T, H or a start */
    SECOND_UNUSED,       /* an unused record, waiting list or store isn't 0 */
    SECOND_TASK_RANGE,   /* state, suspended or priority out of range */
    SECOND_INACTIVE,     /* the record of a task in this state ... */
    SECOND_READY,
    SECOND_WAITING,
    SECOND_SLEEPING,
    SECOND_KIND,         /* kind, limit or start outside the kinds table */
    SECOND_COUNT,        /* count outside the kinds table */
    SECOND_OWNER,        /* a Resource's owner is inactive */
    SECOND_READY_LIST,   /* not exactly the ready tasks, each once, then zeros */
    SECOND_WAITING_LIST, /* not exactly the hub's waiters, each once, then zeros */
    SECOND_ONE_SIDE,     /* putters and getters in one list */
    SECOND_GETTERS,      /* getters wait where none may */
    SECOND_PUTTERS,      /* putters wait where none may */
    SECOND_STORE,        /* a store holds more than its FIFO's words, or its Board's word, or
                          * something but a 1 for a block */
    SECOND_BLOCKS,       /* a Memory's count isn't how many of its blocks have no mark */
    SECOND_ORDER         /* a list's effective priority numbers fall: asked last, when every
                          * list has its tasks (M-108) */
} second_clause;

second_reply second_call(uint32_t *table, size_t words, const uint32_t call[8]);
second_summary_reply second_summary(const uint32_t *table, size_t words, uint32_t hub);

/* The set-up as drill lines (request M-100), of either edition: Blank, one Add task with
 * side 0 per task, one Add hub per hub, in number order, eight numbers a line, unused ones
 * 0, each line with its newline. They build edition 2. Written to the start of a lent
 * buffer of `room` bytes, which must not overlap the table; the bytes behind the listing
 * are left. */
second_listing_reply second_listing(const uint32_t *table, size_t words, uint8_t *text,
                                    size_t room);

/* The table of `from`, of edition 1, as one of edition 2 with high words 0; and back, which
 * is refused with 9 exactly if some high word isn't 0. Up takes 600 and 744 words, down 744
 * and 600; any other pair is 1, then a malformed `from` 2, then 9. Gives the refusal, 0 if
 * done; a refused move writes nothing. The two must not overlap. */
uint32_t second_move_up(const uint32_t *from, size_t from_words, uint32_t *to, size_t to_words);
uint32_t second_move_down(const uint32_t *from, size_t from_words, uint32_t *to, size_t to_words);

/* The places at which two tables of one edition differ (request M-106), in rising order:
 * three words an entry, the place (from 0), the first table's word (old) and the second's
 * (new), written to the start of a lent buffer of `room` words; the words behind the last
 * entry are left. Refused with 1 or 2 for the first table, then for the second, then with 13,
 * then with 8 when the buffer has fewer than 3 * count words. The buffer must not overlap a
 * table; the two tables may be one, since both are only read. */
second_compare_reply second_compare(const uint32_t *first, size_t first_words,
                                    const uint32_t *second, size_t second_words,
                                    uint32_t *places, size_t room);

/* 0 when well formed, else the first broken clause (a second_clause). */
int second_well_formed(const uint32_t *table, size_t words);

second_reply second_call_bytes(uint8_t *bytes, size_t length, const uint32_t call[8]);
second_summary_reply second_summary_bytes(const uint8_t *bytes, size_t length, uint32_t hub);
second_listing_reply second_listing_bytes(const uint8_t *bytes, size_t length, uint8_t *text,
                                          size_t room);
uint32_t second_move_up_bytes(const uint8_t *from, size_t from_bytes, uint8_t *to,
                              size_t to_bytes);
uint32_t second_move_down_bytes(const uint8_t *from, size_t from_bytes, uint8_t *to,
                                size_t to_bytes);

/* The tables are bytes, at any address; the buffer is words, and `room` counts words. */
second_compare_reply second_compare_bytes(const uint8_t *first, size_t first_bytes,
                                          const uint8_t *second, size_t second_bytes,
                                          uint32_t *places, size_t room);

#endif
