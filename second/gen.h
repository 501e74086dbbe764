/* The seeded generator: what the second program is tested with, and what it
 * and the proved kernel are later compared on. It draws calls and tables only;
 * it never runs a kernel, so any kernel may sit between its draws. The same
 * seed gives the same draws on every machine.
 *
 *   a  runs from Blank: gen_mood, then gen_call on the table of the moment
 *   b  well-formed tables that no run need reach: gen_table, then gen_call
 *   c  damaged tables, a family for each way of not being well formed:
 *      gen_damaged; and gen_flip, a few words changed at random, right or not
 *   d  drill lines, damaged ones among them: gen_drill_line
 *   e  set-ups, for the listing: gen_set_up, and gen_change for one that differs
 *      in one number
 *   f  Stops of owners (M-101): gen_stop
 *   g  requests to Boards that readers wait at (M-103): gen_board
 *   h  requests to hubs at which many wait (M-104): gen_queue, then gen_ask
 *   i  tables to be moved (M-105): any of the above, and gen_clear_high, gen_one_high
 *   j  pairs of tables to be compared (M-106): any two of the above, a table before and after
 *      a call, and gen_one_word, gen_apart, gen_last_word
 *   k  blocks put to and taken from a Memory (M-107): gen_pool
 *   l  chains and rings of locks (M-108): gen_chain; and runs with many locks, a with
 *      gen_draw_lock_mood
 */
#ifndef GEN_H
#define GEN_H

#include <stddef.h>
#include <stdint.h>

typedef struct {
    uint64_t state;
} gen_random;

void gen_seed(gen_random *random, uint64_t seed);
uint32_t gen_word(gen_random *random);                     /* all 32-bit values alike */
uint32_t gen_below(gen_random *random, uint32_t bound);    /* 0 to bound - 1 */
int gen_chance(gen_random *random, uint32_t percent);

/* What a run tends to do. The sizes stay; gen_turn draws the leanings anew, so
 * that a long run fills its hubs, empties them and fills them again. */
typedef struct {
    uint32_t tasks, hubs;    /* how many the run adds first */
    uint32_t priorities;     /* how many different ones; 1 makes all equals */
    uint32_t kinds;          /* hubs are of kinds 1 to this */
    uint32_t kind;           /* favourite kind of hub, 0 none */
    uint32_t favourite;      /* percent of requests that go to hub 0 */
    uint32_t puts;           /* percent of requests that put */
    uint32_t longest;        /* ticks of WT and Sleep, 1 to this */
    uint32_t waits;          /* percent of requests under W or WT */
    uint32_t refused;        /* percent of calls meant to be refused */
    uint32_t high;           /* percent of calls with a high word; drawn as 0, the tests' to set */
    uint32_t locks;          /* percent of calls that lock and unlock on purpose, 0 but in runs
                              * with many locks */
} gen_mood;

void gen_draw_mood(gen_random *random, gen_mood *mood);

/* The same without the kinds above `kinds`: RESOURCE gives the runs from before there
 * were Boards, BOARD those from before there were Memories. */
void gen_draw_mood_of(gen_random *random, gen_mood *mood, uint32_t kinds);
void gen_turn(gen_random *random, gen_mood *mood);

/* Of a run with many locks: mostly Resources, and tasks that take one each and then wait for
 * one of a task that waits, so that chains grow, up to 16 tasks, and close to rings. */
void gen_draw_lock_mood(gen_random *random, gen_mood *mood);

/* The next call on this table: Blank unless the table's edition is 1 or 2. With mood->high
 * 0 every high word is 0, and edition 1 is drawn as it was before M-105. */
void gen_call(gen_random *random, const gen_mood *mood, const uint32_t *table, uint32_t call[8]);

/* A table of this edition: 600 or 744 words. */
void gen_table(gen_random *random, uint32_t edition, uint32_t *table);

/* A well-formed table in which one task owns none to 16 Resources, tasks waiting
 * for most of them, and a call in which the running task stops it: what gen_call
 * comes upon seldom, up to 14 waiters met in one call. */
void gen_stop(gen_random *random, uint32_t edition, uint32_t *table, uint32_t call[8]);

/* A well-formed table with a Board at which none to 15 readers wait, or one that is
 * written, and a request of the running task to it, mostly an update: what gen_call
 * comes upon seldom, up to 15 readers met in one call. One of ten is a wipe of any hub. */
void gen_board(gen_random *random, uint32_t edition, uint32_t *table, uint32_t call[8]);

/* A well-formed table with a Memory at which none to 15 getters wait, or of whose blocks some
 * are free, any of them, and a request of the running task to it, three of five a put: mostly
 * of a block that is out, else of one that isn't, of a number past the limit, or with a high
 * word. */
void gen_pool(gen_random *random, uint32_t edition, uint32_t *table, uint32_t call[8]);

/* A well-formed table with a hub at which none to 15 tasks wait, and a request of the
 * running task to it, mostly one that has to wait too: what gen_call comes upon seldom,
 * up to 15 ahead of the caller. gen_ask draws the next such request to that hub, or a
 * Tick where nobody runs. One of twenty comes from another task than the running one. */
void gen_queue(gen_random *random, uint32_t edition, uint32_t *table, uint32_t call[8]);
void gen_ask(gen_random *random, const uint32_t *table, uint32_t hub, uint32_t call[8]);

/* A well-formed table with a chain of 2 to 16 tasks, each of which waits for a lock of the one
 * before it, with a ring of so many, or with several heads and some behind each; others wait
 * beside them for the same locks or for more that they own, run, sleep, or wait elsewhere.
 * And a call that touches it: a lock given
 * back, one more that waits, a Tick, a Stop, Suspend or Resume of one in it, or any. In a
 * ring of 16 nobody runs. */
void gen_chain(gen_random *random, uint32_t edition, uint32_t *table, uint32_t call[8]);

/* An edition 2 table without its high words; and then with one, where a message may be: a
 * ready task's received, a waiting putter's, one that a FIFO holds, a Board's. Gives 0
 * when there is no such place. */
void gen_clear_high(uint32_t *table);
int gen_one_high(gen_random *random, uint32_t *table);

/* Another word at one place where a message stands, its low or its high word: at times with
 * one bit changed, the lowest or the highest. Gives 0 when there is no such place. */
int gen_one_word(gen_random *random, uint32_t *table);

/* Two well-formed tables that differ at as many places as two of one edition can: 352, in
 * edition 2 496. In one all hubs are full FIFOs and all tasks ready with a message received;
 * in the other all tasks wait at Semaphores. More there can't be: edition and starts are the
 * same; where T or H differs, one table has a record in use that the other hasn't, and in
 * every record (a hub's with its store) some word is 0; and the lists of both have at most
 * 32 entries, at as many places. */
void gen_apart(gen_random *random, uint32_t edition, uint32_t *full, uint32_t *awaited);

/* Two well-formed tables that differ in the last word alone. */
void gen_last_word(gen_random *random, uint32_t edition, uint32_t *one, uint32_t *other);

/* Well formed as well, with a set-up of every size, none and 16 often, whose
 * numbers have every count of digits. */
void gen_set_up(gen_random *random, uint32_t edition, uint32_t *table);

/* Another number in one place of the set-up. The table need not stay well
 * formed: a list may be out of order, a count above its limit. Gives 0 when there
 * is no such place, or the number drawn is the one that stands there. */
typedef enum { GEN_PRIORITY, GEN_KIND, GEN_LIMIT, GEN_START } gen_place;
int gen_change(gen_random *random, gen_place place, uint32_t *table);

/* Family 0 to gen_damages() - 1: edition 2 has all of edition 1's, and more behind them. The
 * clause is what the family breaks: the value that second_well_formed gives for each of
 * its tables. */
size_t gen_damages(uint32_t edition);
const char *gen_damage_name(size_t family);
int gen_damage_clause(size_t family);
void gen_damaged(gen_random *random, uint32_t edition, size_t family, uint32_t *table);
void gen_flip(gen_random *random, uint32_t *table);

enum { GEN_LINE_MAX = 6000 };

/* A drill line without its newline; gives its length. *good says whether the
 * line holds the call. */
size_t gen_drill_line(gen_random *random, const gen_mood *mood, const uint32_t *table,
                      uint8_t line[GEN_LINE_MAX], uint32_t call[8], int *good);

#endif
