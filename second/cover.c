/* The coverage rows and what counts as a hit of each. */
#include "cover.h"

#include <stdio.h>
#include <string.h>

#include "gen.h"
#include "numbers.h"

/* ---- Rows -------------------------------------------------------------- */

typedef enum {
    MET_ALONE, MET_WITH_WAITER, NOT_NOW_NW, NOT_NOW_W, NOT_NOW_WT, FAIL_W, FAIL_NW, FAIL_WT,
    OUTCOMES
} hub_outcome;

/* M-105: what becomes of a message, or of the one that a call brings though nothing is
 * sent; and which of its words aren't 0. Edition 1 has the first two classes. */
typedef enum {
    PORT_PUT_MEETS, PORT_PUT_WAITS, PORT_GET_MEETS, FIFO_PUT_MEETS, FIFO_PUT_HELD, FIFO_PUT_WAITS,
    FIFO_GET_ALONE, FIFO_GET_MEETS, FIFO_APPENDS, BOARD_UPDATE, BOARD_MEETS, BOARD_READ,
    PUT_IGNORED, PUT_IGNORED_WAITS, GET_IGNORED, WIPE_IGNORED, PUTTER_TIMES_OUT,
    PUTTER_WITHDRAWN, PATHS
} message_path;

typedef enum { CLASS_0, LOW_ONLY, HIGH_ONLY, BOTH_WORDS, CLASSES } message_class;

/* All rows are there for each edition; the names say what of both.
 * Rows that stand alone, wipes among them. Those above them are products: services,
 * kind by side by outcome, kind by side, kind by side by how many are ahead, and those of
 * M-105: services and kinds with a high word, messages; of M-106: services between the
 * tables compared; of M-108: lengths of chains and rings, how many change, where; those below are the families of damaged tables. Of a move the edition is
 * its source's, of a comparison its first table's. */
#define SINGLE_ROWS(ROW)                                                        \
    ROW(MEETS_SUSPENDED, "request: meets a suspended waiter")                   \
    ROW(MEETS_URGENT, "request: meets a more urgent waiter, who runs next")     \
    ROW(OWNER_SUSPENDED, "request: a suspended waiter becomes owner")           \
    ROW(JOINS_BEHIND_EQUAL, "request: waits behind an equal")                   \
    ROW(JOINS_BEFORE, "request: waits before a less urgent")                    \
    ROW(LIST_OF_8, "request: waits as the 8th or later")                        \
    ROW(LIST_OF_15, "request: waits as the 15th")                               \
    ROW(FIFO_OF_8, "request: a FIFO's 8th word")                                \
    ROW(WORD_0_PASSED, "request: word 0 received")                              \
    ROW(WAITS_MAX, "request: waits with 1000000 ticks")                         \
    ROW(WAITS_1, "request: waits with 1 tick")                                  \
    ROW(AHEAD_W, "ahead: some, under W")                                        \
    ROW(AHEAD_WT, "ahead: some, under WT")                                      \
    ROW(AHEAD_NO_LIMIT, "ahead: one without limit among them")                  \
    ROW(AHEAD_TICKS, "ahead: one with ticks left among them")                   \
    ROW(AHEAD_SUSPENDED, "ahead: a suspended one among them")                   \
    ROW(AHEAD_ALL_SUSPENDED, "ahead: all of them suspended")                    \
    ROW(AHEAD_EQUAL, "ahead: an equal among them")                              \
    ROW(AHEAD_ALL_EQUAL, "ahead: 2 and more, all equals")                       \
    ROW(AHEAD_URGENT, "ahead: a more urgent one among them")                    \
    ROW(AHEAD_URGENT_AND_EQUAL, "ahead: a more urgent one and an equal")        \
    ROW(AHEAD_AND_BEHIND, "ahead: some, and a less urgent one behind")          \
    ROW(AHEAD_NONE_BEHIND, "ahead: none, a less urgent one behind")             \
    ROW(AHEAD_NONE_ALONE, "ahead: none, nobody else waits there")               \
    ROW(AHEAD_ELSEWHERE, "ahead: some, and another number at hub 0")            \
    ROW(AHEAD_NOBODY_RUNS, "ahead: some, and nobody runs next")                 \
    ROW(NOT_AHEAD_MET, "ahead 0: met, others go on waiting there")              \
    ROW(NOT_AHEAD_NW, "ahead 0: not now under NW, others wait there")           \
    ROW(NOT_AHEAD_FAIL, "ahead 0: a Resource FAILs, others wait for it")        \
    ROW(NOT_AHEAD_SLEEP, "ahead 0: Sleep, others sleep and wait")               \
    ROW(NOT_AHEAD_SUSPEND, "ahead 0: Suspend of a waiter with some before it")  \
    ROW(NOT_AHEAD_RESUME, "ahead 0: Resume of a waiter with some before it")    \
    ROW(NOT_AHEAD_STOP, "ahead 0: Stop of a waiter with some before it")        \
    ROW(NOT_AHEAD_TICK, "ahead 0: Tick, some go on waiting")                    \
    ROW(NOT_AHEAD_4, "ahead 0: refusal 4, it waits there behind some")          \
    ROW(NOT_AHEAD_6, "ahead 0: refusal 6, others wait there")                   \
    ROW(UPDATE_W, "update: under W")                                            \
    ROW(UPDATE_NW, "update: under NW")                                          \
    ROW(UPDATE_WT, "update: under WT")                                          \
    ROW(UPDATE_MEETS_0, "update: meets no reader")                              \
    ROW(UPDATE_MEETS_1, "update: meets 1 reader")                               \
    ROW(UPDATE_MEETS_2, "update: meets 2 readers")                              \
    ROW(UPDATE_MEETS_3, "update: meets 3 to 14 readers")                        \
    ROW(UPDATE_MEETS_15, "update: meets 15 readers")                            \
    ROW(UPDATE_OVERWRITES, "update: of a written Board")                        \
    ROW(UPDATE_0, "update: with word 0")                                        \
    ROW(UPDATE_MEETS_0_WORD, "update: a waiting reader is met with word 0")     \
    ROW(UPDATE_MEETS_SUSPENDED, "update: meets a suspended reader")             \
    ROW(UPDATE_MEETS_TICKS, "update: meets a reader with ticks left")           \
    ROW(UPDATE_MEETS_NO_LIMIT, "update: meets a reader without limit")          \
    ROW(UPDATE_MEETS_EQUALS, "update: meets equals, list against task order")   \
    ROW(UPDATE_MEETS_URGENT, "update: a reader met runs next")                  \
    ROW(UPDATE_BEHIND_EQUAL, "update: a reader met is behind a ready equal")    \
    ROW(READ_W, "read: met under W")                                            \
    ROW(READ_NW, "read: met under NW")                                          \
    ROW(READ_WT, "read: met under WT")                                          \
    ROW(READ_0, "read: a written 0")                                            \
    ROW(READ_SUSPENDED_TIMED_OUT, "read: of a suspended task timed out")        \
    ROW(WIPE_W, "wipe: under W")                                                \
    ROW(WIPE_NW, "wipe: under NW")                                              \
    ROW(WIPE_WT, "wipe: under WT")                                              \
    ROW(WIPE_WRITTEN, "wipe: of a written Board")                               \
    ROW(WIPE_0, "wipe: of a written 0")                                         \
    ROW(WIPE_UNWRITTEN, "wipe: without a word, nobody waits")                   \
    ROW(WIPE_AWAITED, "wipe: without a word, readers go on waiting")            \
    ROW(BLOCK_GOT_0, "blocks: a get takes block 0")                             \
    ROW(BLOCK_GOT_1, "blocks: a get takes block 1")                             \
    ROW(BLOCK_GOT_2, "blocks: a get takes block 2")                             \
    ROW(BLOCK_GOT_3, "blocks: a get takes block 3")                             \
    ROW(BLOCK_GOT_4, "blocks: a get takes block 4")                             \
    ROW(BLOCK_GOT_5, "blocks: a get takes block 5")                             \
    ROW(BLOCK_GOT_6, "blocks: a get takes block 6")                             \
    ROW(BLOCK_GOT_7, "blocks: a get takes block 7")                             \
    ROW(BLOCK_FREED_0, "blocks: a put brings block 0 back")                     \
    ROW(BLOCK_FREED_1, "blocks: a put brings block 1 back")                     \
    ROW(BLOCK_FREED_2, "blocks: a put brings block 2 back")                     \
    ROW(BLOCK_FREED_3, "blocks: a put brings block 3 back")                     \
    ROW(BLOCK_FREED_4, "blocks: a put brings block 4 back")                     \
    ROW(BLOCK_FREED_5, "blocks: a put brings block 5 back")                     \
    ROW(BLOCK_FREED_6, "blocks: a put brings block 6 back")                     \
    ROW(BLOCK_FREED_7, "blocks: a put brings block 7 back")                     \
    ROW(BLOCK_PASSED_0, "blocks: a put of block 0 meets a getter")              \
    ROW(BLOCK_PASSED_1, "blocks: a put of block 1 meets a getter")              \
    ROW(BLOCK_PASSED_2, "blocks: a put of block 2 meets a getter")              \
    ROW(BLOCK_PASSED_3, "blocks: a put of block 3 meets a getter")              \
    ROW(BLOCK_PASSED_4, "blocks: a put of block 4 meets a getter")              \
    ROW(BLOCK_PASSED_5, "blocks: a put of block 5 meets a getter")              \
    ROW(BLOCK_PASSED_6, "blocks: a put of block 6 meets a getter")              \
    ROW(BLOCK_PASSED_7, "blocks: a put of block 7 meets a getter")              \
    ROW(BLOCK_NONE_1, "blocks: not now, all of 1 out")                          \
    ROW(BLOCK_NONE_2, "blocks: not now, all of 2 out")                          \
    ROW(BLOCK_NONE_3, "blocks: not now, all of 3 out")                          \
    ROW(BLOCK_NONE_4, "blocks: not now, all of 4 out")                          \
    ROW(BLOCK_NONE_5, "blocks: not now, all of 5 out")                          \
    ROW(BLOCK_NONE_6, "blocks: not now, all of 6 out")                          \
    ROW(BLOCK_NONE_7, "blocks: not now, all of 7 out")                          \
    ROW(BLOCK_NONE_8, "blocks: not now, all of 8 out")                          \
    ROW(BLOCK_GOT_W, "blocks: a get met under W")                               \
    ROW(BLOCK_GOT_NW, "blocks: a get met under NW")                             \
    ROW(BLOCK_GOT_WT, "blocks: a get met under WT")                             \
    ROW(BLOCK_FREED_W, "blocks: a put met alone under W")                       \
    ROW(BLOCK_FREED_NW, "blocks: a put met alone under NW")                     \
    ROW(BLOCK_FREED_WT, "blocks: a put met alone under WT")                     \
    ROW(BLOCK_PASSED_W, "blocks: a put meets a getter under W")                 \
    ROW(BLOCK_PASSED_NW, "blocks: a put meets a getter under NW")               \
    ROW(BLOCK_PASSED_WT, "blocks: a put meets a getter under WT")               \
    ROW(BLOCK_GOT_FIRST, "blocks: a get while every block is in")               \
    ROW(BLOCK_GOT_LAST, "blocks: a get takes the only one left")                \
    ROW(BLOCK_GOT_BELOW, "blocks: a get takes one below one that is out")       \
    ROW(BLOCK_GOT_BETWEEN, "blocks: a get takes one of several, above one that is out") \
    ROW(BLOCK_FREED_FIRST, "blocks: a put while every block is out, nobody waits") \
    ROW(BLOCK_FREED_LAST, "blocks: a put of the only one that is out")          \
    ROW(BLOCK_FREED_WORD, "blocks: a put met whose caller had a word")          \
    ROW(BLOCK_PASSED_WORD, "blocks: a put meets a getter, its caller had a word") \
    ROW(BLOCK_PASSED_SUSPENDED, "blocks: a suspended getter is met")            \
    ROW(BLOCK_PASSED_TICKS, "blocks: a getter with ticks left is met")          \
    ROW(BLOCK_PASSED_NO_LIMIT, "blocks: a getter without limit is met")         \
    ROW(BLOCK_PASSED_URGENT, "blocks: a getter met runs next")                  \
    ROW(BLOCK_PASSED_LEAVES, "blocks: a getter is met, others go on waiting")   \
    ROW(BLOCK_PASSED_15, "blocks: a getter is met, 14 go on waiting")           \
    ROW(BLOCK_IN_FAIL_W, "blocks: FAIL under W, a block that is in")            \
    ROW(BLOCK_IN_FAIL_NW, "blocks: FAIL under NW, a block that is in")          \
    ROW(BLOCK_IN_FAIL_WT, "blocks: FAIL under WT, a block that is in")          \
    ROW(BLOCK_LIMIT_FAIL_W, "blocks: FAIL under W, the number is the limit")    \
    ROW(BLOCK_LIMIT_FAIL_NW, "blocks: FAIL under NW, the number is the limit")  \
    ROW(BLOCK_LIMIT_FAIL_WT, "blocks: FAIL under WT, the number is the limit")  \
    ROW(BLOCK_PAST_FAIL_W, "blocks: FAIL under W, a number above the limit")    \
    ROW(BLOCK_PAST_FAIL_NW, "blocks: FAIL under NW, a number above the limit")  \
    ROW(BLOCK_PAST_FAIL_WT, "blocks: FAIL under WT, a number above the limit")  \
    ROW(BLOCK_PAST_FAIL_STORE, "blocks: FAIL, a number past the limit and below 8") \
    ROW(BLOCK_PAST_FAIL_8, "blocks: FAIL, number 8")                            \
    ROW(BLOCK_FAIL_AWAITED, "blocks: FAIL while getters wait")                  \
    ROW(BLOCK_HIGH_FAIL_W, "blocks: FAIL under W, a high word")                 \
    ROW(BLOCK_HIGH_FAIL_NW, "blocks: FAIL under NW, a high word")               \
    ROW(BLOCK_HIGH_FAIL_WT, "blocks: FAIL under WT, a high word")               \
    ROW(BLOCK_HIGH_OUT, "blocks: FAIL, a high word over a block that is out")   \
    ROW(BLOCK_HIGH_IN, "blocks: FAIL, a high word over a block that is in")     \
    ROW(BLOCK_HIGH_AWAITED, "blocks: FAIL, a high word over one out, getters wait") \
    ROW(BLOCK_SUSPENDED_TIMED_OUT, "blocks: a suspended getter timed out")      \
    ROW(START_OK, "Start: inactive")                                            \
    ROW(START_READY, "Start FAIL: ready")                                       \
    ROW(START_WAITING, "Start FAIL: waiting")                                   \
    ROW(START_SLEEPING, "Start FAIL: sleeping")                                 \
    ROW(START_CALLER, "Start FAIL: the caller")                                 \
    ROW(STOP_READY, "Stop: ready")                                              \
    ROW(STOP_SLEEPING, "Stop: sleeper")                                         \
    ROW(STOP_SUSPENDED_READY, "Stop: suspended, ready")                         \
    ROW(STOP_SUSPENDED_WAITING, "Stop: suspended, waiting")                     \
    ROW(STOP_SUSPENDED_SLEEPING, "Stop: suspended, sleeping")                   \
    ROW(STOP_OWNS_0, "Stop: owns no Resource")                                  \
    ROW(STOP_OWNS_1, "Stop: owns 1 Resource, nobody waits")                     \
    ROW(STOP_OWNS_2, "Stop: owns 2 Resources, nobody waits")                    \
    ROW(STOP_OWNS_3, "Stop: owns 3 and more, nobody waits")                     \
    ROW(STOP_AWAITED_1, "Stop: owns 1 Resource, somebody waits")                \
    ROW(STOP_AWAITED_2, "Stop: owns 2 Resources, somebody waits")               \
    ROW(STOP_AWAITED_3, "Stop: owns 3 and more, somebody waits")                \
    ROW(STOP_OWNER_READY, "Stop: an owner, ready")                              \
    ROW(STOP_OWNER_WAITING, "Stop: an owner, waiting")                          \
    ROW(STOP_OWNER_SLEEPING, "Stop: an owner, sleeping")                        \
    ROW(STOP_OWNER_SUSPENDED, "Stop: an owner, suspended")                      \
    ROW(STOP_MEETS_1, "Stop: one waiter met")                                   \
    ROW(STOP_MEETS_2, "Stop: two waiters met")                                  \
    ROW(STOP_MEETS_3, "Stop: 3 to 7 waiters met")                               \
    ROW(STOP_MEETS_8, "Stop: 8 to 13 waiters met")                              \
    ROW(STOP_MEETS_14, "Stop: 14 waiters met")                                  \
    ROW(STOP_PASSES_AND_FREES, "Stop: one Resource passes, one becomes free")   \
    ROW(STOP_MEETS_SUSPENDED, "Stop: a suspended waiter becomes owner")         \
    ROW(STOP_MEETS_TICKS, "Stop: a waiter with ticks left becomes owner")       \
    ROW(STOP_MEETS_NO_LIMIT, "Stop: a waiter without limit becomes owner")      \
    ROW(STOP_LEAVES_SECOND, "Stop: a second waiter goes on waiting")            \
    ROW(STOP_MEETS_URGENT, "Stop: a waiter met runs next")                      \
    ROW(STOP_MEETS_EQUALS, "Stop: meets equals, hub against task order")        \
    ROW(STOP_RING, "Stop: meets the owner of what it waited for")               \
    ROW(STOP_INACTIVE, "Stop FAIL: inactive")                                   \
    ROW(STOP_CALLER, "Stop FAIL: the caller")                                   \
    ROW(STOP_CALLER_OWNER, "Stop FAIL: the caller, an owner")                   \
    ROW(SUSPEND_READY, "Suspend: ready")                                        \
    ROW(SUSPEND_WAITING, "Suspend: waiting")                                    \
    ROW(SUSPEND_SLEEPING, "Suspend: sleeping")                                  \
    ROW(SUSPEND_INACTIVE, "Suspend FAIL: inactive")                             \
    ROW(SUSPEND_SUSPENDED, "Suspend FAIL: suspended")                           \
    ROW(SUSPEND_CALLER, "Suspend FAIL: the caller")                             \
    ROW(RESUME_READY, "Resume: ready")                                          \
    ROW(RESUME_URGENT, "Resume: ready, runs next")                              \
    ROW(RESUME_WAITING, "Resume: waiting")                                      \
    ROW(RESUME_SLEEPING, "Resume: sleeping")                                    \
    ROW(RESUME_NOT_SUSPENDED, "Resume FAIL: not suspended")                     \
    ROW(RESUME_INACTIVE, "Resume FAIL: inactive")                               \
    ROW(RESUME_CALLER, "Resume FAIL: the caller")                               \
    ROW(YIELD_ALONE, "Yield: no equal")                                         \
    ROW(YIELD_EQUALS, "Yield: behind an equal")                                 \
    ROW(YIELD_SUSPENDED, "Yield: behind a suspended equal only")                \
    ROW(SLEEP_1, "Sleep: 1 tick")                                               \
    ROW(SLEEP_MAX, "Sleep: 1000000 ticks")                                      \
    ROW(NONE_LEFT, "nobody runs after Sleep or a request")                      \
    ROW(NEXT_NOT_FIRST, "next isn't the first ready task: it is suspended")     \
    ROW(TICK_NOTHING, "Tick: nobody's time is out")                             \
    ROW(TICK_ONE, "Tick: one task's time is out")                               \
    ROW(TICK_MORE, "Tick: several tasks' time is out")                          \
    ROW(TICK_SLEEPER, "Tick: a sleeper wakes")                                  \
    ROW(TICK_SUSPENDED_WAITING, "Tick: a suspended waiter times out")           \
    ROW(TICK_SUSPENDED_SLEEPING, "Tick: a suspended sleeper wakes")             \
    ROW(TICK_NOBODY_RUNS, "Tick: with nobody running")                          \
    ROW(ADD_TASK_INACTIVE, "Add task: side 0")                                  \
    ROW(ADD_TASK_STARTED, "Add task: side 1")                                   \
    ROW(ADD_TASK_URGENT, "Add task: side 1, runs next")                         \
    ROW(ADD_TASK_255, "Add task: priority 255")                                 \
    ROW(ADD_TASK_16TH, "Add task: the 16th")                                    \
    ROW(ADD_EVENT, "Add hub: Event")                                            \
    ROW(ADD_SEMAPHORE, "Add hub: Semaphore")                                    \
    ROW(ADD_PORT, "Add hub: Port")                                              \
    ROW(ADD_FIFO, "Add hub: FIFO")                                              \
    ROW(ADD_RESOURCE, "Add hub: Resource")                                      \
    ROW(ADD_BOARD, "Add hub: Board")                                            \
    ROW(ADD_MEMORY, "Add hub: Memory")                                          \
    ROW(ADD_SEMAPHORE_MAX, "Add hub: Semaphore, limit 65535")                   \
    ROW(ADD_MEMORY_1, "Add hub: Memory, 1 block")                               \
    ROW(ADD_MEMORY_8, "Add hub: Memory, 8 blocks")                              \
    ROW(ADD_HUB_16TH, "Add hub: the 16th")                                      \
    ROW(BLANK_DAMAGED, "Blank: on a damaged table")                             \
    ROW(LENGTH_0, "refusal 1: 0 words")                                         \
    ROW(LENGTH_599, "refusal 1: 599 words")                                     \
    ROW(LENGTH_601, "refusal 1: 601 words")                                     \
    ROW(LENGTH_743, "refusal 1: 743 words")                                     \
    ROW(LENGTH_745, "refusal 1: 745 words")                                     \
    ROW(BYTES_0, "refusal 1: 0 bytes")                                          \
    ROW(BYTES_2399, "refusal 1: 2399 bytes")                                    \
    ROW(BYTES_2401, "refusal 1: 2401 bytes")                                    \
    ROW(BYTES_2975, "refusal 1: 2975 bytes")                                    \
    ROW(BYTES_2977, "refusal 1: 2977 bytes")                                    \
    ROW(HIGH_AND_2, "refusal 2: a high word as well")                           \
    ROW(HIGH_AND_3, "refusal 3: a high word as well")                           \
    ROW(HIGH_AND_4, "refusal 4: Hub request, a high word as well")              \
    ROW(HIGH_AND_5, "refusal 5: Hub request, a high word as well")              \
    ROW(HIGH_AND_6, "refusal 6: Hub request, another cause and a high word")    \
    ROW(HIGH_AND_7, "refusal 7: a high word as well")                           \
    ROW(HIGH_MAX, "request: high word 4294967295, right or refused")            \
    ROW(HIGH_1, "request: high word 1, right or refused")                       \
    ROW(MOVE_DONE, "move: done")                                                \
    ROW(MOVE_BACK, "move: done, and back again")                                \
    ROW(MOVE_IN_RUN, "move: in the middle of a run")                            \
    ROW(MOVE_IN_RUN_WAITING, "move: in a run, requests wait on")                \
    ROW(MOVE_NO_TASK, "move: no task")                                          \
    ROW(MOVE_16_TASKS, "move: 16 tasks")                                        \
    ROW(MOVE_NO_HUB, "move: no hub")                                            \
    ROW(MOVE_16_HUBS, "move: 16 hubs")                                          \
    ROW(MOVE_WAITER, "move: somebody waits")                                    \
    ROW(MOVE_8_WAIT, "move: 8 and more wait at a hub")                          \
    ROW(MOVE_PORT_PUTTER, "move: a Port's putter waits with its word")          \
    ROW(MOVE_FIFO_PUTTER, "move: a FIFO's putter waits with its word")          \
    ROW(MOVE_RECEIVED, "move: a ready task has a word")                         \
    ROW(MOVE_SLEEPER, "move: somebody sleeps")                                  \
    ROW(MOVE_SUSPENDED, "move: somebody is suspended")                          \
    ROW(MOVE_HELD, "move: a FIFO holds words")                                  \
    ROW(MOVE_HELD_8, "move: a FIFO holds 8 words")                              \
    ROW(MOVE_BOARD, "move: a Board is written")                                 \
    ROW(MOVE_BLOCKS, "move: blocks of a Memory are out")                        \
    ROW(MOVE_BLOCKS_8, "move: 8 blocks of a Memory are out")                    \
    ROW(MOVE_OWNED, "move: a Resource is owned")                                \
    ROW(MOVE_1_SOURCE, "move refusal 1: the source's length alone")             \
    ROW(MOVE_1_DESTINATION, "move refusal 1: the destination's length alone")   \
    ROW(MOVE_1_BOTH, "move refusal 1: both lengths")                            \
    ROW(MOVE_1_SAME, "move refusal 1: both of the source's size")               \
    ROW(MOVE_1_AND_2, "move refusal 1: a malformed source as well")             \
    ROW(MOVE_1_AND_9, "move refusal 1: a high word as well")                    \
    ROW(MOVE_1_BYTES_SOURCE, "move refusal 1: a source of other bytes")         \
    ROW(MOVE_1_BYTES_TO, "move refusal 1: a destination of other bytes")        \
    ROW(MOVE_1_BY_1, "move refusal 1: one byte too few or too many")            \
    ROW(MOVE_2, "move refusal 2")                                               \
    ROW(MOVE_2_AND_9, "move refusal 2: a high word as well")                    \
    ROW(MOVE_9, "move refusal 9")                                               \
    ROW(MOVE_9_READY, "move refusal 9: one high word, received")                \
    ROW(MOVE_9_PORT, "move refusal 9: one high word, a Port's putter")          \
    ROW(MOVE_9_FIFO, "move refusal 9: one high word, a FIFO's putter")          \
    ROW(MOVE_9_BOARD, "move refusal 9: one high word, a Board's")               \
    ROW(MOVE_9_HELD_1, "move refusal 9: one high word, a FIFO's 1st")           \
    ROW(MOVE_9_HELD_2, "move refusal 9: one high word, a FIFO's 2nd")           \
    ROW(MOVE_9_HELD_3, "move refusal 9: one high word, a FIFO's 3rd")           \
    ROW(MOVE_9_HELD_4, "move refusal 9: one high word, a FIFO's 4th")           \
    ROW(MOVE_9_HELD_5, "move refusal 9: one high word, a FIFO's 5th")           \
    ROW(MOVE_9_HELD_6, "move refusal 9: one high word, a FIFO's 6th")           \
    ROW(MOVE_9_HELD_7, "move refusal 9: one high word, a FIFO's 7th")           \
    ROW(MOVE_9_HELD_8, "move refusal 9: one high word, a FIFO's 8th")           \
    ROW(COMPARE_0, "compare: no place differs")                                 \
    ROW(COMPARE_1, "compare: 1 place differs")                                  \
    ROW(COMPARE_2, "compare: 2 to 9 places differ")                             \
    ROW(COMPARE_10, "compare: 10 to 99 places differ")                          \
    ROW(COMPARE_100, "compare: 100 places and more differ")                     \
    ROW(COMPARE_ALL, "compare: every place differs that can")                   \
    ROW(COMPARE_TASKS, "compare: place 1 differs, T")                           \
    ROW(COMPARE_HUBS, "compare: place 2 differs, H")                            \
    ROW(COMPARE_TASK, "compare: a task record differs")                         \
    ROW(COMPARE_HUB, "compare: a hub record differs")                           \
    ROW(COMPARE_READY, "compare: the ready list differs")                       \
    ROW(COMPARE_WAITING, "compare: a waiting list differs")                     \
    ROW(COMPARE_STORE, "compare: a store differs")                              \
    ROW(COMPARE_LAST, "compare: the last word differs")                         \
    ROW(COMPARE_LAST_ALONE, "compare: the last word alone differs")             \
    ROW(COMPARE_LOW, "compare: of a message the low word alone differs")        \
    ROW(COMPARE_HIGH, "compare: of a message the high word alone differs")      \
    ROW(COMPARE_PAIR, "compare: both words of a message differ")                \
    ROW(COMPARE_OLD_0, "compare: an old word is 0")                             \
    ROW(COMPARE_NEW_0, "compare: a new word is 0")                              \
    ROW(COMPARE_OLD_MAX, "compare: an old word is 4294967295")                  \
    ROW(COMPARE_NEW_MAX, "compare: a new word is 4294967295")                   \
    ROW(COMPARE_BIT_0, "compare: two words differ in bit 0 alone")              \
    ROW(COMPARE_BIT_31, "compare: two words differ in bit 31 alone")            \
    ROW(COMPARE_REFUSED, "compare: before and after a refused call")            \
    ROW(COMPARE_NO_ROOM, "compare: nothing to write, and no room")              \
    ROW(COMPARE_EXACT, "compare: exactly the room there is")                    \
    ROW(COMPARE_PAST_1, "compare: one word or two behind the last entry")       \
    ROW(COMPARE_PAST_3, "compare: more words behind the last entry")            \
    ROW(COMPARE_F1, "compare refusal 1: the first table")                       \
    ROW(COMPARE_F1_AND_1, "compare refusal 1: the first table, the second too") \
    ROW(COMPARE_F1_AND_2, "compare refusal 1: the first table, the second malformed") \
    ROW(COMPARE_F1_AND_8, "compare refusal 1: the first table, no room either") \
    ROW(COMPARE_F2, "compare refusal 2: the first table")                       \
    ROW(COMPARE_F2_AND_1, "compare refusal 2: the first table, the second's length") \
    ROW(COMPARE_F2_AND_2, "compare refusal 2: the first table, the second too") \
    ROW(COMPARE_F2_AND_13, "compare refusal 2: the first table, the other edition") \
    ROW(COMPARE_F2_AND_8, "compare refusal 2: the first table, no room either") \
    ROW(COMPARE_S1, "compare refusal 1: the second table")                      \
    ROW(COMPARE_S1_AND_8, "compare refusal 1: the second table, no room either") \
    ROW(COMPARE_S2, "compare refusal 2: the second table")                      \
    ROW(COMPARE_S2_AND_13, "compare refusal 2: the second table, the other edition") \
    ROW(COMPARE_S2_AND_8, "compare refusal 2: the second table, no room either") \
    ROW(COMPARE_13, "compare refusal 13")                                       \
    ROW(COMPARE_13_AND_8, "compare refusal 13: no room either")                 \
    ROW(COMPARE_13_MOVED, "compare refusal 13: a table and its move")           \
    ROW(COMPARE_8, "compare refusal 8")                                         \
    ROW(COMPARE_8_NONE, "compare refusal 8: no room at all")                    \
    ROW(COMPARE_8_BY_1, "compare refusal 8: one word missing")                  \
    ROW(COMPARE_8_BY_2, "compare refusal 8: two words missing")                 \
    ROW(COMPARE_8_BY_3, "compare refusal 8: one entry missing")                 \
    ROW(COMPARE_1_BYTES_FIRST, "compare refusal 1: the first table of other bytes") \
    ROW(COMPARE_1_BYTES_SECOND, "compare refusal 1: the second table of other bytes") \
    ROW(COMPARE_1_BYTES_BY_1, "compare refusal 1: one byte too few or too many") \
    ROW(DAMAGED_AND_3, "refusal 2: service above 10 as well")                   \
    ROW(SERVICE_11, "refusal 3: service 11")                                    \
    ROW(SERVICE_ABOVE, "refusal 3: service above 11")                           \
    ROW(CALLER_REQUEST, "refusal 4: Hub request, another task runs")            \
    ROW(CALLER_START, "refusal 4: Start, another task runs")                    \
    ROW(CALLER_STOP, "refusal 4: Stop, another task runs")                      \
    ROW(CALLER_SUSPEND, "refusal 4: Suspend, another task runs")                \
    ROW(CALLER_RESUME, "refusal 4: Resume, another task runs")                  \
    ROW(CALLER_YIELD, "refusal 4: Yield, another task runs")                    \
    ROW(CALLER_SLEEP, "refusal 4: Sleep, another task runs")                    \
    ROW(CALLER_NO_TASK, "refusal 4: caller not in use")                         \
    ROW(NOBODY_RUNS, "refusal 4: nobody runs")                                  \
    ROW(NOBODY_RUNS_MAX, "refusal 4: nobody runs, caller 4294967295")           \
    ROW(CALLER_AND_5, "refusal 4: target not in use as well")                   \
    ROW(CALLER_AND_6, "refusal 4: an argument wrong as well")                   \
    ROW(TARGET_REQUEST, "refusal 5: Hub request")                               \
    ROW(TARGET_START, "refusal 5: Start")                                       \
    ROW(TARGET_STOP, "refusal 5: Stop")                                         \
    ROW(TARGET_SUSPEND, "refusal 5: Suspend")                                   \
    ROW(TARGET_RESUME, "refusal 5: Resume")                                     \
    ROW(TARGET_AND_6, "refusal 5: an argument wrong as well")                   \
    ROW(TARGET_WIPE, "refusal 5: Hub request, side 3")                          \
    ROW(SIDE_0, "refusal 6: Hub request, side 0")                               \
    ROW(SIDE_ABOVE, "refusal 6: Hub request, side above 3")                     \
    ROW(SIDE_3_EVENT, "refusal 6: Hub request, side 3 at an Event")             \
    ROW(SIDE_3_SEMAPHORE, "refusal 6: Hub request, side 3 at a Semaphore")      \
    ROW(SIDE_3_PORT, "refusal 6: Hub request, side 3 at a Port")                \
    ROW(SIDE_3_FIFO, "refusal 6: Hub request, side 3 at a FIFO")                \
    ROW(SIDE_3_RESOURCE, "refusal 6: Hub request, side 3 at a Resource")        \
    ROW(SIDE_3_MEMORY, "refusal 6: Hub request, side 3 at a Memory")            \
    ROW(MODE_0, "refusal 6: Hub request, mode 0")                               \
    ROW(MODE_ABOVE, "refusal 6: Hub request, mode above 3")                     \
    ROW(W_TICKS, "refusal 6: Hub request, ticks under W")                       \
    ROW(NW_TICKS, "refusal 6: Hub request, ticks under NW")                     \
    ROW(WT_0, "refusal 6: Hub request, WT, 0 ticks")                            \
    ROW(WT_MAX_1, "refusal 6: Hub request, WT, 1000001 ticks")                  \
    ROW(WT_ABOVE, "refusal 6: Hub request, WT, more ticks")                     \
    ROW(WIPE_ARGUMENT, "refusal 6: a wipe, mode or ticks wrong")                \
    ROW(SLEEP_0, "refusal 6: Sleep, 0 ticks")                                   \
    ROW(SLEEP_MAX_1, "refusal 6: Sleep, 1000001 ticks")                         \
    ROW(SLEEP_ABOVE, "refusal 6: Sleep, more ticks")                            \
    ROW(PRIORITY_256, "refusal 6: Add task, priority 256")                      \
    ROW(PRIORITY_ABOVE, "refusal 6: Add task, priority above 256")              \
    ROW(TASK_SIDE, "refusal 6: Add task, side above 1")                         \
    ROW(KIND_0, "refusal 6: Add hub, kind 0")                                   \
    ROW(KIND_ABOVE, "refusal 6: Add hub, kind above 7")                         \
    ROW(EVENT_LIMIT_0, "refusal 6: Add hub, Event, limit 0")                    \
    ROW(EVENT_LIMIT, "refusal 6: Add hub, Event, limit above 1")                \
    ROW(EVENT_START, "refusal 6: Add hub, Event, start")                        \
    ROW(SEMAPHORE_LIMIT_0, "refusal 6: Add hub, Semaphore, limit 0")            \
    ROW(SEMAPHORE_LIMIT, "refusal 6: Add hub, Semaphore, limit above 65535")    \
    ROW(SEMAPHORE_START, "refusal 6: Add hub, Semaphore, start above limit")    \
    ROW(PORT_LIMIT, "refusal 6: Add hub, Port, limit")                          \
    ROW(PORT_START, "refusal 6: Add hub, Port, start")                          \
    ROW(FIFO_LIMIT_0, "refusal 6: Add hub, FIFO, limit 0")                      \
    ROW(FIFO_LIMIT, "refusal 6: Add hub, FIFO, limit above 8")                  \
    ROW(FIFO_START, "refusal 6: Add hub, FIFO, start")                          \
    ROW(RESOURCE_LIMIT_0, "refusal 6: Add hub, Resource, limit 0")              \
    ROW(RESOURCE_LIMIT, "refusal 6: Add hub, Resource, limit above 1")          \
    ROW(RESOURCE_START, "refusal 6: Add hub, Resource, start")                  \
    ROW(BOARD_LIMIT_0, "refusal 6: Add hub, Board, limit 0")                    \
    ROW(BOARD_LIMIT, "refusal 6: Add hub, Board, limit above 1")                \
    ROW(BOARD_START, "refusal 6: Add hub, Board, start")                        \
    ROW(MEMORY_LIMIT_0, "refusal 6: Add hub, Memory, limit 0")                  \
    ROW(MEMORY_LIMIT, "refusal 6: Add hub, Memory, limit above 8")              \
    ROW(MEMORY_START_0, "refusal 6: Add hub, Memory, start 0")                  \
    ROW(MEMORY_START_BELOW, "refusal 6: Add hub, Memory, start below the limit") \
    ROW(MEMORY_START_ABOVE, "refusal 6: Add hub, Memory, start above the limit") \
    ROW(TASK_ARGUMENT_AND_7, "refusal 6: Add task, 16 already as well")         \
    ROW(HUB_ARGUMENT_AND_7, "refusal 6: Add hub, 16 already as well")           \
    ROW(FULL_TASKS, "refusal 7: Add task")                                      \
    ROW(FULL_HUBS, "refusal 7: Add hub")                                        \
    ROW(SUMMARY_LENGTH, "summary refusal 1")                                    \
    ROW(SUMMARY_DAMAGED, "summary refusal 2")                                   \
    ROW(SUMMARY_TARGET, "summary refusal 5")                                    \
    ROW(SUMMARY_0, "summary: nobody waits")                                     \
    ROW(SUMMARY_1, "summary: one waits")                                        \
    ROW(SUMMARY_2, "summary: 2 to 7 wait")                                      \
    ROW(SUMMARY_8, "summary: 8 and more wait")                                  \
    ROW(SUMMARY_SUSPENDED, "summary: a suspended task waits")                   \
    ROW(LISTING_LENGTH, "listing refusal 1")                                    \
    ROW(LISTING_BYTES, "listing refusal 1: neither 2400 nor 2976 bytes")        \
    ROW(LISTING_DAMAGED, "listing refusal 2")                                   \
    ROW(LISTING_DAMAGED_AND_8, "listing refusal 2: no room for a line as well") \
    ROW(LISTING_8, "listing refusal 8")                                         \
    ROW(LISTING_8_NONE, "listing refusal 8: no room at all")                    \
    ROW(LISTING_8_BY_1, "listing refusal 8: one byte missing")                  \
    ROW(LISTING_ACCEPTED, "listing: accepted")                                  \
    ROW(LISTING_EXACT, "listing: exactly the room there is")                    \
    ROW(LISTING_PAST, "listing: bytes left behind it")                          \
    ROW(LISTING_MOST_BYTES, "listing: 704 bytes")                               \
    ROW(LISTING_TASKS_0, "listing: no task")                                    \
    ROW(LISTING_TASKS_1, "listing: one task")                                   \
    ROW(LISTING_TASKS_2, "listing: 2 to 15 tasks")                              \
    ROW(LISTING_TASKS_16, "listing: 16 tasks")                                  \
    ROW(LISTING_HUBS_0, "listing: no hub")                                      \
    ROW(LISTING_HUBS_1, "listing: one hub")                                     \
    ROW(LISTING_HUBS_2, "listing: 2 to 15 hubs")                                \
    ROW(LISTING_HUBS_16, "listing: 16 hubs")                                    \
    ROW(LISTING_STARTED, "listing: a task that isn't inactive")                 \
    ROW(LISTING_COUNT, "listing: a count that isn't the start")                 \
    ROW(LISTING_EVENT, "listing: Event")                                        \
    ROW(LISTING_SEMAPHORE, "listing: Semaphore")                                \
    ROW(LISTING_PORT, "listing: Port")                                          \
    ROW(LISTING_FIFO, "listing: FIFO")                                          \
    ROW(LISTING_RESOURCE, "listing: Resource")                                  \
    ROW(LISTING_BOARD, "listing: Board")                                        \
    ROW(LISTING_MEMORY, "listing: Memory")                                      \
    ROW(LISTING_PRIORITY_1, "listing: priority of 1 digit")                     \
    ROW(LISTING_PRIORITY_2, "listing: priority of 2 digits")                    \
    ROW(LISTING_PRIORITY_3, "listing: priority of 3 digits")                    \
    ROW(LISTING_LIMIT_1, "listing: limit of 1 digit")                           \
    ROW(LISTING_LIMIT_2, "listing: limit of 2 digits")                          \
    ROW(LISTING_LIMIT_3, "listing: limit of 3 digits")                          \
    ROW(LISTING_LIMIT_4, "listing: limit of 4 digits")                          \
    ROW(LISTING_LIMIT_5, "listing: limit of 5 digits")                          \
    ROW(LISTING_START_1, "listing: start of 1 digit")                           \
    ROW(LISTING_START_2, "listing: start of 2 digits")                          \
    ROW(LISTING_START_3, "listing: start of 3 digits")                          \
    ROW(LISTING_START_4, "listing: start of 4 digits")                          \
    ROW(LISTING_START_5, "listing: start of 5 digits")                          \
    ROW(PAIR_STRIPPED, "listings same: a table and its set-up alone")           \
    ROW(PAIR_SAME, "listings same: before and after a call")                    \
    ROW(PAIR_ADDED, "listings differ: before and after an Add or Blank")        \
    ROW(PAIR_PRIORITY, "listings differ: one priority")                         \
    ROW(PAIR_KIND, "listings differ: one kind")                                 \
    ROW(PAIR_LIMIT, "listings differ: one limit")                               \
    ROW(PAIR_START, "listings differ: one start")                               \
    ROW(PAIR_OTHER, "listings differ: another table")                           \
    ROW(HEIR_RUNS, "inherit: who runs is before one more urgent by its own")    \
    ROW(HEIR_READY_FALLS, "inherit: the ready list falls by own priorities")    \
    ROW(HEIR_LIST_FALLS, "inherit: a hub's list falls by own priorities")       \
    ROW(HEIR_2_LOCKS, "inherit: of one owner 2 locks are awaited")              \
    ROW(HEIR_3_LOCKS, "inherit: of one owner 3 locks and more are awaited")     \
    ROW(HEIR_2_WAITERS, "inherit: 2 and more wait for one lock")                \
    ROW(HEIR_THROUGH, "inherit: from one who waits through others")             \
    ROW(HEIR_FROM_SUSPENDED, "inherit: from a suspended waiter")                \
    ROW(HEIR_SUSPENDED, "inherit: by a suspended owner")                        \
    ROW(HEIR_SLEEPS, "inherit: by a sleeping owner")                            \
    ROW(HEIR_ELSEWHERE, "inherit: by an owner who waits, and for no lock")      \
    ROW(RISE_BY_WAIT, "inherit: rises, a request waits")                        \
    ROW(RISE_NONE, "inherit: none rises, a request waits for a lock")           \
    ROW(FALL_BY_UNLOCK, "inherit: falls, an unlock")                            \
    ROW(FALL_BY_STOP, "inherit: falls, a Stop")                                 \
    ROW(FALL_BY_TICK, "inherit: falls, a Tick")                                 \
    ROW(FALL_TICK_TWO, "inherit: falls, two who waited for locks time out")     \
    ROW(UNLOCKER_PASSED, "inherit: an unlocker loses its place, another runs")  \
    ROW(UNLOCKER_STILL, "inherit: an unlocker falls and runs all the same")     \
    ROW(UNLOCKER_KEEPS, "inherit: an unlocker falls not, an equal behind it")   \
    ROW(BACK_TWO, "inherit: 2 and more are put back into one list")             \
    ROW(BACK_EQUALS, "inherit: 2 are put back into one list as equals")         \
    ROW(BACK_TURNED, "inherit: the same, who stood against number order")       \
    ROW(BACK_BEHIND, "inherit: one is put back behind an equal that stayed")    \
    ROW(BACK_BOTH, "inherit: into the ready list and a hub's in one call")      \
    ROW(BACK_JOINED, "inherit: one who became ready in the call is put back")   \
    ROW(JOIN_MET, "inherit: an heir met joins before one of its own priority")  \
    ROW(JOIN_TO, "inherit: an heir timed out joins before one of its own")      \
    ROW(JOIN_YIELD, "inherit: an heir yields and stays before one of its own")  \
    ROW(JOIN_WAIT, "inherit: an heir waits before one of its own priority")     \
    ROW(JOIN_ADDED, "inherit: a task added, started, joins behind an heir")     \
    ROW(AHEAD_HEIR, "inherit: one ahead would be behind by its own")            \
    ROW(STOP_LINK, "inherit: Stop of one who waits for a lock, and is awaited") \
    ROW(STOP_HEIR, "inherit: Stop passes a lock on to one who has inherited")   \
    ROW(SUSPEND_LINK, "inherit: Suspend of one who waits, and is awaited")      \
    ROW(RESUME_LINK, "inherit: Resume of one who waits, and is awaited")        \
    ROW(RING_CLOSED, "inherit: a request closes a ring")                        \
    ROW(RING_TICK, "inherit: a Tick breaks a ring")                             \
    ROW(RING_STOP, "inherit: a Stop breaks a ring")

enum {
    SERVICE_ROWS = 0,
    REQUEST_ROWS = SERVICE_ROWS + ADD_HUB + 1,
    TIMEOUT_ROWS = REQUEST_ROWS + MEMORY * GET * OUTCOMES,
    WITHDRAWN_ROWS = TIMEOUT_ROWS + MEMORY * GET,
    AHEAD_ROWS = WITHDRAWN_ROWS + MEMORY * GET,
    HIGH_SERVICE_ROWS = AHEAD_ROWS + MEMORY * GET * TASKS,
    HIGH_REFUSED_ROWS = HIGH_SERVICE_ROWS + ADD_HUB + 1,
    MESSAGE_ROWS = HIGH_REFUSED_ROWS + MEMORY * WIPE,
    CLEARED_ROWS = MESSAGE_ROWS + PATHS * CLASSES,
    COMPARE_ROWS = CLEARED_ROWS + SLEEP * CLASSES, /* M-106, neighbours: services */
    CHAIN_ROWS = COMPARE_ROWS + ADD_HUB + 1, /* M-108, tasks in the longest chain, 2 to 16, */
    RING_ROWS = CHAIN_ROWS + TASKS - 1,      /* in a ring, 2 to 16, */
    CHANGED_ROWS = RING_ROWS + TASKS - 1,    /* changed in one call, 1 to 15, */
    PLACE_ROWS = CHANGED_ROWS + TASKS - 1,   /* rises and falls by place: no list, ready, kinds */
    BEFORE_SINGLE_ROWS = PLACE_ROWS + 2 * (MEMORY + 2) - 1,
#define ROW(symbol, name) symbol,
    SINGLE_ROWS(ROW)
#undef ROW
    DAMAGE_ROWS
};

_Static_assert(DAMAGE_ROWS + 200 <= COVER_ROWS_MAX, "room for every row and family");

static const char *const single_names[] = {
#define ROW(symbol, name) name,
    SINGLE_ROWS(ROW)
#undef ROW
};

static const char *const kinds[] = {"Event",    "Semaphore", "Port",  "FIFO",
                                    "Resource", "Board",     "Memory"};
static const char *const sides[] = {"put", "get"}; /* at a Board: update, read */

static size_t row_count(uint32_t edition) { return DAMAGE_ROWS + gen_damages(edition); }

static void hit_if(cover *seen, int condition, size_t row)
{
    seen->hits[seen->edition - EDITION_1][row] += condition != 0;
}

static void hit(cover *seen, size_t row) { hit_if(seen, 1, row); }

static size_t kind_side(uint32_t kind, uint32_t side)
{
    return (kind - EVENT) * (size_t)GET + (side - PUT);
}

/* At most 15 are ahead: all tasks but the caller. */
static size_t ahead_row(uint32_t kind, uint32_t side, uint32_t ahead)
{
    return AHEAD_ROWS + kind_side(kind, side) * TASKS + ahead;
}

static size_t request_row(uint32_t kind, uint32_t side, hub_outcome outcome)
{
    return REQUEST_ROWS + kind_side(kind, side) * OUTCOMES + outcome;
}

/* The hub table has no such entry: nobody waits to put to a Resource, a Board or a Memory, a
 * get meets no waiter there, a Port holds nothing, and only a Resource FAILs, and a put to a
 * Memory. */
static int request_reachable(uint32_t kind, uint32_t side, hub_outcome outcome)
{
    int not_now = outcome == NOT_NOW_NW || outcome == NOT_NOW_W || outcome == NOT_NOW_WT;

    if (kind != RESOURCE && !(kind == MEMORY && side == PUT) && outcome >= FAIL_W)
        return 0;
    if (kind >= RESOURCE)
        return side == PUT ? !not_now : outcome != MET_WITH_WAITER;
    return !(kind == PORT && outcome == MET_ALONE);
}

/* In a product of kind by side: putters wait there. */
static int putters_wait(size_t pair)
{
    return pair < kind_side(RESOURCE, PUT) || pair % GET != kind_side(RESOURCE, PUT) % GET;
}

/* What only edition 2 has: high words in messages, and so refusal 9; what only edition 1
 * has: a high word that is wrong. */
static int row_in_edition(uint32_t edition, size_t row)
{
    if (row == HIGH_SERVICE_ROWS + HUB_REQUEST)
        return edition == EDITION_2;
    if (row >= HIGH_REFUSED_ROWS && row < MESSAGE_ROWS) {
        size_t at = row - HIGH_REFUSED_ROWS;
        return edition == EDITION_1 && (at % WIPE < GET || at / WIPE + EVENT == BOARD);
    }
    if (row >= MESSAGE_ROWS && row < CLEARED_ROWS)
        return edition == EDITION_2 || (row - MESSAGE_ROWS) % CLASSES <= LOW_ONLY;
    if (row >= CLEARED_ROWS && row < COMPARE_ROWS)
        return (row - CLEARED_ROWS) % CLASSES != CLASS_0 &&
               (edition == EDITION_2 || (row - CLEARED_ROWS) % CLASSES == LOW_ONLY);
    if (row == COMPARE_HIGH || row == COMPARE_PAIR)
        return edition == EDITION_2;
    if (row >= BLOCK_HIGH_FAIL_W && row <= BLOCK_HIGH_AWAITED)
        return edition == EDITION_2;
    if (row == MOVE_1_AND_9 || (row >= MOVE_2_AND_9 && row <= MOVE_9_HELD_8))
        return edition == EDITION_2;
    return 1;
}

static int row_reachable(uint32_t edition, size_t row)
{
    if (!row_in_edition(edition, row))
        return 0;
    if (row >= REQUEST_ROWS && row < TIMEOUT_ROWS) {
        size_t at = row - REQUEST_ROWS, pair = at / OUTCOMES;
        return request_reachable((uint32_t)(pair / GET + EVENT), (uint32_t)(pair % GET + PUT),
                                 (hub_outcome)(at % OUTCOMES));
    }
    if (row >= TIMEOUT_ROWS && row < AHEAD_ROWS)
        return putters_wait((row - TIMEOUT_ROWS) % (MEMORY * GET));
    if (row >= AHEAD_ROWS && row < HIGH_SERVICE_ROWS) /* a Resource's owner doesn't wait */
        return putters_wait((row - AHEAD_ROWS) / TASKS) &&
               row != ahead_row(RESOURCE, GET, TASKS - 1);
    return 1;
}

static const char *const services[] = {"Blank", "Hub request", "Start", "Stop", "Suspend",
                                       "Resume", "Yield", "Sleep", "Tick", "Add task", "Add hub"};

/* The rows of M-108 that are products. */
static void inherit_row_name(size_t row, char *name, size_t size)
{
    size_t place = (row - PLACE_ROWS) / 2;

    if (row < RING_ROWS)
        snprintf(name, size, "inherit: the longest chain has %zu tasks", row - CHAIN_ROWS + 2);
    else if (row < CHANGED_ROWS)
        snprintf(name, size, "inherit: a ring of %zu tasks", row - RING_ROWS + 2);
    else if (row < PLACE_ROWS)
        snprintf(name, size, "inherit: %zu change in one call", row - CHANGED_ROWS + 1);
    else
        snprintf(name, size, "inherit: %s in %s%s", (row - PLACE_ROWS) % 2 == 0 ? "rises" : "falls",
                 place == 0   ? "no list, asleep"
                 : place == 1 ? "the ready list"
                              : "a list of kind ",
                 place < 2 ? "" : kinds[place - 2]);
}

/* The rows of M-105, M-106 and M-108 that are products. */
static void high_row_name(size_t row, char *name, size_t size)
{
    static const char *const paths[] = {
        "Port put meets", "Port put waits", "Port get takes a putter's", "FIFO put meets",
        "FIFO put is held", "FIFO put waits", "FIFO get takes the oldest",
        "FIFO get takes the oldest, a putter waits", "FIFO get appends a putter's", "Board update",
        "Board update meets", "Board read", "not sent, put", "not sent, put waits",
        "not sent, get", "not sent, wipe", "a putter times out", "a putter is withdrawn"};
    static const char *const classes[] = {"0", "low only", "high only", "both words"};
    static const char *const three_sides[] = {"put", "get", "wipe"};

    if (row < HIGH_REFUSED_ROWS)
        snprintf(name, size, "accepted: %s, with a high word", services[row - HIGH_SERVICE_ROWS]);
    else if (row < MESSAGE_ROWS)
        snprintf(name, size, "refusal 6: high word alone, %s %s",
                 kinds[(row - HIGH_REFUSED_ROWS) / WIPE],
                 three_sides[(row - HIGH_REFUSED_ROWS) % WIPE]);
    else if (row < CLEARED_ROWS)
        snprintf(name, size, "message: %s, %s", paths[(row - MESSAGE_ROWS) / CLASSES],
                 classes[(row - MESSAGE_ROWS) % CLASSES]);
    else if (row < COMPARE_ROWS)
        snprintf(name, size, "message: the caller's own before %s, %s",
                 services[HUB_REQUEST + (row - CLEARED_ROWS) / CLASSES],
                 classes[(row - CLEARED_ROWS) % CLASSES]);
    else if (row < CHAIN_ROWS)
        snprintf(name, size, "compare: before and after %s", services[row - COMPARE_ROWS]);
    else
        inherit_row_name(row, name, size);
}

static void row_name(size_t row, char *name, size_t size)
{
    static const char *const outcomes[] = {
        "met alone", "met with a waiter", "not now under NW", "not now under W",
        "not now under WT", "FAIL under W", "FAIL under NW", "FAIL under WT"};

    if (row < REQUEST_ROWS) {
        snprintf(name, size, "accepted: %s", services[row]);
    } else if (row < TIMEOUT_ROWS) {
        size_t at = row - REQUEST_ROWS, pair = at / OUTCOMES;
        snprintf(name, size, "request: %s %s, %s", kinds[pair / GET], sides[pair % GET],
                 outcomes[at % OUTCOMES]);
    } else if (row < WITHDRAWN_ROWS) {
        size_t pair = row - TIMEOUT_ROWS;
        snprintf(name, size, "Tick: %s %s times out", kinds[pair / GET], sides[pair % GET]);
    } else if (row < AHEAD_ROWS) {
        size_t pair = row - WITHDRAWN_ROWS;
        snprintf(name, size, "Stop: %s %s withdrawn", kinds[pair / GET], sides[pair % GET]);
    } else if (row >= HIGH_SERVICE_ROWS && row <= BEFORE_SINGLE_ROWS) {
        high_row_name(row, name, size);
    } else if (row < HIGH_SERVICE_ROWS) {
        size_t at = row - AHEAD_ROWS, pair = at / TASKS;
        snprintf(name, size, "ahead: %s %s, %zu", kinds[pair / GET], sides[pair % GET],
                 at % TASKS);
    } else if (row < DAMAGE_ROWS) {
        snprintf(name, size, "%s", single_names[row - BEFORE_SINGLE_ROWS - 1]);
    } else {
        snprintf(name, size, "refusal 2: %s", gen_damage_name(row - DAMAGE_ROWS));
    }
}

/* ---- Reading the tables ------------------------------------------------ */

static uint32_t task_word(const uint32_t *table, uint32_t task, size_t field)
{
    return table[field_place(table, task, field)];
}

static int owns(const uint32_t *table, uint32_t task, uint32_t hub)
{
    return table[hub_place(table, hub) + H_KIND] == RESOURCE &&
           table[hub_place(table, hub) + H_COUNT] == task + 1;
}

/* The kind of the hub at which a task waits. */
static uint32_t kind_awaited(const uint32_t *table, uint32_t task)
{
    return table[hub_place(table, task_word(table, task, T_HUB) - 1) + H_KIND];
}

static uint32_t length_of(const uint32_t *list)
{
    uint32_t length = 0;
    while (length < LIST_WORDS && list[length] != 0)
        length++;
    return length;
}

static int somebody_runs(const uint32_t *table)
{
    const uint32_t *entry = table + ready_place(table), *end = entry + LIST_WORDS;

    for (; entry < end && *entry; entry++)
        if (!task_word(table, *entry - 1, T_SUSPENDED))
            return 1;
    return 0;
}

/* The message that a call brings. */
static uint64_t sent(const uint32_t *call)
{
    return call[C_WORD] + ((uint64_t)call[C_HIGH] << 32);
}

static message_class class_of(uint64_t message)
{
    int low = (uint32_t)message != 0, high = message >> 32 != 0;
    return low && high ? BOTH_WORDS : high ? HIGH_ONLY : low ? LOW_ONLY : CLASS_0;
}

static void hit_message(cover *seen, message_path path, uint64_t message)
{
    hit(seen, MESSAGE_ROWS + path * CLASSES + class_of(message));
}

/* ---- Inherited priorities ---------------------------------------------- */

enum { NOBODY_AWAITED = TASKS };

/* The owner of the lock that a task waits for, or NOBODY_AWAITED. */
static uint32_t awaited(const uint32_t *table, uint32_t task)
{
    if (task_word(table, task, T_STATE) != WAITING || kind_awaited(table, task) != RESOURCE)
        return NOBODY_AWAITED;
    return table[hub_place(table, task_word(table, task, T_HUB) - 1) + H_COUNT] - 1;
}

static int some_lock_awaited(const uint32_t *table)
{
    for (uint32_t task = 0; task < table[TASKS_IN_USE_AT]; task++)
        if (awaited(table, task) != NOBODY_AWAITED)
            return 1;
    return 0;
}

/* What the rows read of a table: whom each task waits for, or NOBODY_AWAITED, effective
 * priorities, the longest chain and ring, and how many wait for each task directly. */
typedef struct {
    uint32_t owner[TASKS], least[TASKS], waiters[TASKS], longest, ring;
} standing;

/* The effective priority is the least own one of all from whom a way of owners leads to a
 * task: each goes its way, up to where it has been. */
static void read_standing(standing *of, const uint32_t *table)
{
    uint32_t tasks = table[TASKS_IN_USE_AT];

    memset(of, 0, sizeof *of);
    for (uint32_t task = 0; task < tasks; task++) {
        of->owner[task] = awaited(table, task);
        of->least[task] = task_word(table, task, T_PRIORITY);
    }
    for (uint32_t task = 0; task < tasks; task++) {
        uint32_t at = task, seen = 0, length = 0, own = task_word(table, task, T_PRIORITY);
        for (; at != NOBODY_AWAITED && (seen >> at & 1) == 0; at = of->owner[at]) {
            of->least[at] = own < of->least[at] ? own : of->least[at];
            seen |= UINT32_C(1) << at;
            length++;
        }
        if (length > of->longest)
            of->longest = length;
        if (at == task && length > of->ring)
            of->ring = length;
        if (of->owner[task] != NOBODY_AWAITED)
            of->waiters[of->owner[task]]++;
    }
}

static uint32_t urgency(const uint32_t *table, uint32_t task)
{
    standing of;
    uint32_t locks = 0;

    for (uint32_t hub = 0; hub < table[HUBS_IN_USE_AT]; hub++)
        locks += owns(table, task, hub) && table[list_place(table, hub)] != 0;
    if (locks == 0)
        return task_word(table, task, T_PRIORITY);
    read_standing(&of, table);
    return of.least[task];
}

static int falls_by_own(const uint32_t *table, const uint32_t *list)
{
    for (uint32_t i = 1; i < length_of(list); i++)
        if (task_word(table, list[i] - 1, T_PRIORITY) <
            task_word(table, list[i - 1] - 1, T_PRIORITY))
            return 1;
    return 0;
}

static int is_heir(const uint32_t *table, const standing *of, uint32_t task)
{
    return of->least[task] < task_word(table, task, T_PRIORITY);
}

/* The list where a task stands, or NULL. */
static const uint32_t *list_of(const uint32_t *table, uint32_t task)
{
    switch (task_word(table, task, T_STATE)) {
    case READY:
        return table + ready_place(table);
    case WAITING:
        return table + list_place(table, task_word(table, task, T_HUB) - 1);
    default:
        return NULL;
    }
}

static uint32_t place_of(const uint32_t *list, uint32_t task)
{
    uint32_t at = 0;
    while (list[at] != task + 1)
        at++;
    return at;
}

/* Somebody behind the task in its list is, by own priorities, not less urgent. */
static int passes_by_own(const uint32_t *table, uint32_t task)
{
    const uint32_t *list = list_of(table, task);

    for (uint32_t at = place_of(list, task) + 1; at < length_of(list); at++)
        if (task_word(table, list[at] - 1, T_PRIORITY) <= task_word(table, task, T_PRIORITY))
            return 1;
    return 0;
}

/* Who inherits from whom, in the table that an accepted call left. */
static void cover_heirs(cover *seen, const uint32_t *table, const standing *of, uint32_t next)
{
    hit_if(seen, next != 0 && is_heir(table, of, next - 1) && passes_by_own(table, next - 1),
           HEIR_RUNS);
    hit_if(seen, falls_by_own(table, table + ready_place(table)), HEIR_READY_FALLS);
    for (uint32_t hub = 0; hub < table[HUBS_IN_USE_AT]; hub++) {
        uint32_t length = length_of(table + list_place(table, hub));
        hit_if(seen, falls_by_own(table, table + list_place(table, hub)), HEIR_LIST_FALLS);
        hit_if(seen, table[hub_place(table, hub) + H_KIND] == RESOURCE && length > 1,
               HEIR_2_WAITERS);
    }
    for (uint32_t task = 0; task < table[TASKS_IN_USE_AT]; task++) {
        uint32_t locks = 0, direct = UINT32_MAX, owner = of->owner[task];
        for (uint32_t hub = 0; of->waiters[task] > 0 && hub < table[HUBS_IN_USE_AT]; hub++)
            locks += owns(table, task, hub) && table[list_place(table, hub)] != 0;
        for (uint32_t other = 0; of->waiters[task] > 0 && other < table[TASKS_IN_USE_AT]; other++)
            if (of->owner[other] == task && task_word(table, other, T_PRIORITY) < direct)
                direct = task_word(table, other, T_PRIORITY);
        hit_if(seen, locks == 2, HEIR_2_LOCKS);
        hit_if(seen, locks > 2, HEIR_3_LOCKS);
        hit_if(seen, owner != NOBODY_AWAITED && task_word(table, task, T_SUSPENDED) == 1 &&
                         is_heir(table, of, owner) && of->least[owner] == of->least[task],
               HEIR_FROM_SUSPENDED);
        if (!is_heir(table, of, task))
            continue;
        hit_if(seen, of->least[task] < direct, HEIR_THROUGH);
        hit_if(seen, task_word(table, task, T_SUSPENDED) == 1, HEIR_SUSPENDED);
        hit_if(seen, task_word(table, task, T_STATE) == SLEEPING, HEIR_SLEEPS);
        hit_if(seen, task_word(table, task, T_STATE) == WAITING && owner == NOBODY_AWAITED,
               HEIR_ELSEWHERE);
    }
}

/* Where those stand who changed, and who stood where among them. */
static void cover_put_back(cover *seen, const uint32_t *before, const standing *old,
                           const uint32_t *after, const standing *new)
{
    uint32_t count = 0, places = 0;

    for (uint32_t task = 0; task < before[TASKS_IN_USE_AT]; task++) {
        const uint32_t *list = list_of(after, task), *stood = list_of(before, task);
        uint32_t state = task_word(after, task, T_STATE);
        if (new->least[task] == old->least[task] || state == INACTIVE)
            continue;
        uint32_t place = state == SLEEPING ? 0 : state == READY ? 1 : kind_awaited(after, task) + 1;
        hit(seen, PLACE_ROWS + 2 * place + (new->least[task] > old->least[task]));
        count++;
        if (list == NULL)
            continue;
        places |= state == READY ? 1 : 2;
        hit_if(seen, state == READY && task_word(before, task, T_STATE) != READY, BACK_JOINED);
        uint32_t at = place_of(list, task);
        for (uint32_t i = 0; i < at; i++) {
            uint32_t other = list[i] - 1;
            int changed = other < before[TASKS_IN_USE_AT] && new->least[other] != old->least[other];
            int equal = new->least[other] == new->least[task];
            hit_if(seen, changed, BACK_TWO);
            hit_if(seen, changed && equal, BACK_EQUALS);
            hit_if(seen, changed && equal && stood != NULL && stood == list_of(before, other) &&
                             place_of(stood, other) > place_of(stood, task),
                   BACK_TURNED);
            hit_if(seen, !changed && equal, BACK_BEHIND);
        }
    }
    hit_if(seen, places == 3, BACK_BOTH);
    if (count > 0)
        hit(seen, CHANGED_ROWS + count - 1);
}

static int waits_and_is_awaited(const uint32_t *table, const standing *of, uint32_t task)
{
    return awaited(table, task) != NOBODY_AWAITED && of->waiters[task] > 0;
}

/* The caller's request to a Resource: it waits, or the caller unlocks. */
static void cover_lock(cover *seen, const uint32_t *before, const standing *old,
                       const uint32_t *call, second_reply reply, const uint32_t *after,
                       const standing *new)
{
    uint32_t caller = call[C_CALLER], behind = place_of(before + ready_place(before), caller) + 1;
    uint32_t next = before[ready_place(before) + behind % LIST_WORDS];
    int rises = 0;

    for (uint32_t task = 0; task < before[TASKS_IN_USE_AT]; task++)
        rises |= new->least[task] < old->least[task];
    if (task_word(after, caller, T_STATE) == WAITING) {
        hit(seen, rises ? RISE_BY_WAIT : RISE_NONE);
        hit_if(seen, new->ring > old->ring, RING_CLOSED);
    }
    if (call[C_SIDE] != PUT || reply.answer != OK)
        return;
    int falls = new->least[caller] > old->least[caller];
    hit_if(seen, falls, FALL_BY_UNLOCK);
    hit_if(seen, falls && reply.next != caller + 1, UNLOCKER_PASSED);
    hit_if(seen, falls && reply.next == caller + 1, UNLOCKER_STILL);
    hit_if(seen, !falls && behind < LIST_WORDS && next != 0 &&
                     old->least[next - 1] == old->least[caller] && reply.next == caller + 1 &&
                     before[list_place(before, call[C_TARGET])] != 0,
           UNLOCKER_KEEPS);
}

static void cover_loss(cover *seen, const uint32_t *before, const standing *old,
                       const uint32_t *call, const uint32_t *after, const standing *new)
{
    uint32_t target = call[C_TARGET], links = 0;
    int falls = 0, stops = call[C_SERVICE] == STOP;

    for (uint32_t task = 0; task < before[TASKS_IN_USE_AT]; task++) {
        falls |= new->least[task] > old->least[task] && !(stops && task == target);
        links += awaited(before, task) != NOBODY_AWAITED &&
                 task_word(after, task, T_STATE) != WAITING;
        hit_if(seen, stops && awaited(before, task) == target &&
                         task_word(after, task, T_STATE) == READY && is_heir(before, old, task),
               STOP_HEIR);
    }
    hit_if(seen, falls, stops ? FALL_BY_STOP : FALL_BY_TICK);
    hit_if(seen, falls && !stops && links > 1, FALL_TICK_TWO);
    hit_if(seen, stops && waits_and_is_awaited(before, old, target), STOP_LINK);
    hit_if(seen, old->ring > 0 && new->ring == 0, stops ? RING_STOP : RING_TICK);
}

/* Who joins by an inherited priority, before one whom its own wouldn't pass. */
static void cover_joins(cover *seen, const uint32_t *before, const standing *old,
                        const uint32_t *call, second_reply reply, const uint32_t *after)
{
    const uint32_t *list = after + list_place(after, call[C_TARGET]);
    uint32_t caller = call[C_CALLER], last = after[TASKS_IN_USE_AT] - 1;

    for (uint32_t task = 0; task < before[TASKS_IN_USE_AT]; task++) {
        uint32_t was = task_word(before, task, T_STATE);
        if ((was != WAITING && was != SLEEPING) || task_word(after, task, T_STATE) != READY)
            continue;
        int passes = is_heir(before, old, task) && passes_by_own(after, task);
        hit_if(seen, passes, call[C_SERVICE] == TICK ? JOIN_TO : JOIN_MET);
    }
    if (call[C_SERVICE] == YIELD)
        hit_if(seen, is_heir(before, old, caller) && passes_by_own(after, caller), JOIN_YIELD);
    if (call[C_SERVICE] == ADD_TASK && call[C_SIDE] == 1)
        hit_if(seen, place_of(after + ready_place(after), last) > 0 &&
                         is_heir(before, old, after[ready_place(after)] - 1),
               JOIN_ADDED);
    if (call[C_SERVICE] != HUB_REQUEST || task_word(after, caller, T_STATE) != WAITING)
        return;
    hit_if(seen, is_heir(before, old, caller) && passes_by_own(after, caller), JOIN_WAIT);
    for (uint32_t i = 0; i < reply.ahead; i++)
        hit_if(seen, task_word(after, list[i] - 1, T_PRIORITY) >
                         task_word(after, caller, T_PRIORITY),
               AHEAD_HEIR);
}

static void cover_inherited(cover *seen, const uint32_t *before, const uint32_t *call,
                            second_reply reply, const uint32_t *after)
{
    standing old, new;

    if (call[C_SERVICE] == BLANK || (!some_lock_awaited(before) && !some_lock_awaited(after)))
        return;
    read_standing(&old, before);
    read_standing(&new, after);
    if (old.longest >= 2)
        hit(seen, CHAIN_ROWS + old.longest - 2);
    if (old.ring >= 2)
        hit(seen, RING_ROWS + old.ring - 2);
    cover_heirs(seen, after, &new, reply.next);
    cover_put_back(seen, before, &old, after, &new);
    cover_joins(seen, before, &old, call, reply, after);
    if (call[C_SERVICE] == HUB_REQUEST &&
        before[hub_place(before, call[C_TARGET]) + H_KIND] == RESOURCE)
        cover_lock(seen, before, &old, call, reply, after, &new);
    if (call[C_SERVICE] == TICK || (call[C_SERVICE] == STOP && reply.answer == OK))
        cover_loss(seen, before, &old, call, after, &new);
    if ((call[C_SERVICE] == SUSPEND || call[C_SERVICE] == RESUME) && reply.answer == OK)
        hit_if(seen, waits_and_is_awaited(before, &old, call[C_TARGET]),
               call[C_SERVICE] == SUSPEND ? SUSPEND_LINK : RESUME_LINK);
}

/* ---- Accepted calls ---------------------------------------------------- */

/* How many of the first entries have this in that field. */
static uint32_t entries_with(const uint32_t *table, const uint32_t *list, uint32_t entries,
                             size_t field, uint32_t value)
{
    uint32_t with = 0;

    for (uint32_t i = 0; i < entries; i++)
        with += task_word(table, list[i] - 1, field) == value;
    return with;
}

static uint32_t equals_among(const uint32_t *table, const uint32_t *list, uint32_t entries,
                             uint32_t priority)
{
    uint32_t equals = 0;

    for (uint32_t i = 0; i < entries; i++)
        equals += urgency(table, list[i] - 1) == priority;
    return equals;
}

/* Who they are that stand ahead of the caller, and behind it. */
static void cover_ahead(cover *seen, const uint32_t *call, second_reply reply,
                        const uint32_t *after)
{
    const uint32_t *list = after + list_place(after, call[C_TARGET]);
    uint32_t ahead = reply.ahead, behind = length_of(list) - ahead - 1;
    uint32_t equals = equals_among(after, list, ahead, urgency(after, call[C_CALLER]));
    uint32_t suspended = entries_with(after, list, ahead, T_SUSPENDED, 1);
    uint32_t unlimited = entries_with(after, list, ahead, T_TICKS, 0);

    hit(seen, ahead_row(after[hub_place(after, call[C_TARGET]) + H_KIND], call[C_SIDE], ahead));
    if (ahead == 0) {
        hit(seen, behind > 0 ? AHEAD_NONE_BEHIND : AHEAD_NONE_ALONE);
        return;
    }
    hit(seen, call[C_MODE] == W ? AHEAD_W : AHEAD_WT);
    hit_if(seen, unlimited > 0, AHEAD_NO_LIMIT);
    hit_if(seen, unlimited < ahead, AHEAD_TICKS);
    hit_if(seen, suspended > 0, AHEAD_SUSPENDED);
    hit_if(seen, suspended == ahead, AHEAD_ALL_SUSPENDED);
    hit_if(seen, equals > 0, AHEAD_EQUAL);
    hit_if(seen, ahead > 1 && equals == ahead, AHEAD_ALL_EQUAL);
    hit_if(seen, equals < ahead, AHEAD_URGENT);
    hit_if(seen, equals > 0 && equals < ahead, AHEAD_URGENT_AND_EQUAL);
    hit_if(seen, behind > 0, AHEAD_AND_BEHIND);
    hit_if(seen, call[C_TARGET] != 0 && length_of(after + list_place(after, 0)) != ahead,
           AHEAD_ELSEWHERE);
    hit_if(seen, reply.next == 0, AHEAD_NOBODY_RUNS);
}

/* Some stand before the task in the list where it waits. */
static int waits_behind(const uint32_t *table, uint32_t task)
{
    return task_word(table, task, T_STATE) == WAITING &&
           table[list_place(table, task_word(table, task, T_HUB) - 1)] != task + 1;
}

static int somebody_in(const uint32_t *table, uint32_t state)
{
    for (uint32_t task = 0; task < table[TASKS_IN_USE_AT]; task++)
        if (task_word(table, task, T_STATE) == state)
            return 1;
    return 0;
}

/* Services that have nobody ahead, though there are some whom one might count. */
static void cover_not_ahead(cover *seen, const uint32_t *before, const uint32_t *call,
                            second_reply reply, const uint32_t *after)
{
    uint32_t target = call[C_TARGET];

    switch (call[C_SERVICE]) {
    case SLEEP:
        hit_if(seen, somebody_in(before, SLEEPING) && somebody_in(before, WAITING),
               NOT_AHEAD_SLEEP);
        break;
    case SUSPEND:
        hit_if(seen, reply.answer == OK && waits_behind(before, target), NOT_AHEAD_SUSPEND);
        break;
    case RESUME:
        hit_if(seen, reply.answer == OK && waits_behind(before, target), NOT_AHEAD_RESUME);
        break;
    case STOP:
        hit_if(seen, reply.answer == OK && waits_behind(before, target), NOT_AHEAD_STOP);
        break;
    case TICK:
        hit_if(seen, somebody_in(after, WAITING), NOT_AHEAD_TICK);
        break;
    }
}

static void cover_waits(cover *seen, const uint32_t *call, const uint32_t *after)
{
    const uint32_t *list = after + list_place(after, call[C_TARGET]);
    uint32_t at = 0, length = length_of(list), own = urgency(after, call[C_CALLER]);

    while (list[at] != call[C_CALLER] + 1)
        at++;
    hit_if(seen, at > 0 && urgency(after, list[at - 1] - 1) == own,
           JOINS_BEHIND_EQUAL);
    hit_if(seen, at + 1 < length, JOINS_BEFORE);
    hit_if(seen, length >= 8, LIST_OF_8);
    hit_if(seen, length == 15, LIST_OF_15);
    hit_if(seen, call[C_TICKS] == TICKS_MAX, WAITS_MAX);
    hit_if(seen, call[C_TICKS] == 1, WAITS_1);
}

static void cover_met_waiter(cover *seen, uint32_t waiter, uint32_t kind, second_reply reply,
                             const uint32_t *after)
{
    int suspended = task_word(after, waiter, T_SUSPENDED) == 1;

    hit_if(seen, suspended, MEETS_SUSPENDED);
    hit_if(seen, suspended && kind == RESOURCE, OWNER_SUSPENDED);
    hit_if(seen, reply.next == waiter + 1, MEETS_URGENT);
}

/* The readers that an update met, in the order in which they stood. */
static void cover_readers(cover *seen, const uint32_t *before, const uint32_t *list,
                          const uint32_t *call, const uint32_t *after)
{
    for (uint32_t i = 0; i < length_of(list); i++) {
        uint32_t reader = list[i] - 1, own = urgency(before, reader);
        const uint32_t *ready = after + ready_place(after);
        int equals = i > 0 && urgency(before, list[i - 1] - 1) == own;

        while (*ready != reader + 1)
            ready++;
        hit_if(seen, sent(call) == 0, UPDATE_MEETS_0_WORD);
        hit_if(seen, task_word(before, reader, T_SUSPENDED) == 1, UPDATE_MEETS_SUSPENDED);
        hit(seen, task_word(before, reader, T_TICKS) > 0 ? UPDATE_MEETS_TICKS
                                                         : UPDATE_MEETS_NO_LIMIT);
        hit_if(seen, equals && list[i - 1] > list[i], UPDATE_MEETS_EQUALS);
        hit_if(seen, ready > after + ready_place(after) &&
                         task_word(before, ready[-1] - 1, T_STATE) == READY &&
                         urgency(before, ready[-1] - 1) == own,
               UPDATE_BEHIND_EQUAL);
    }
}

static void cover_update(cover *seen, const uint32_t *before, const uint32_t *call,
                         second_reply reply, const uint32_t *after)
{
    const uint32_t *list = before + list_place(before, call[C_TARGET]);
    uint32_t readers = length_of(list);

    hit(seen, UPDATE_W + call[C_MODE] - W);
    hit(seen, UPDATE_MEETS_0 + (readers < 3 ? readers : readers < 15 ? 3 : 4));
    hit_if(seen, before[hub_place(before, call[C_TARGET]) + H_COUNT] == 1, UPDATE_OVERWRITES);
    hit_if(seen, sent(call) == 0, UPDATE_0);
    hit_if(seen, reply.next != 0 && task_word(before, reply.next - 1, T_STATE) == WAITING,
           UPDATE_MEETS_URGENT);
    cover_readers(seen, before, list, call, after);
}

static void cover_wipe(cover *seen, const uint32_t *before, const uint32_t *call)
{
    int written = before[hub_place(before, call[C_TARGET]) + H_COUNT] == 1;
    int awaited = before[list_place(before, call[C_TARGET])] != 0;

    hit(seen, WIPE_W + call[C_MODE] - W);
    hit(seen, written ? WIPE_WRITTEN : awaited ? WIPE_AWAITED : WIPE_UNWRITTEN);
    hit_if(seen, written && message_at(before, store_place(before, call[C_TARGET])) == 0,
           WIPE_0);
}

/* What the products of kind, side and outcome don't say of a request to a Board. */
static void cover_board(cover *seen, const uint32_t *before, const uint32_t *call,
                        second_reply reply, const uint32_t *after)
{
    if (call[C_SIDE] == PUT)
        cover_update(seen, before, call, reply, after);
    if (call[C_SIDE] == WIPE)
        cover_wipe(seen, before, call);
    if (call[C_SIDE] == GET && reply.answer == OK) {
        hit(seen, READ_W + call[C_MODE] - W);
        hit_if(seen, message_at(before, store_place(before, call[C_TARGET])) == 0, READ_0);
    }
}

/* The blocks of a Memory that are out, bit i for block i. */
static uint32_t blocks_out(const uint32_t *table, uint32_t hub)
{
    uint32_t out = 0;

    for (uint32_t block = 0; block < BLOCKS_MAX; block++)
        out |= (uint32_t)(message_at(table, held_place(table, hub, block)) == 1) << block;
    return out;
}

/* The row of mode W is followed by those of NW and WT. */
static void hit_mode(cover *seen, const uint32_t *call, size_t row)
{
    hit(seen, row + call[C_MODE] - W);
}

static void cover_got_block(cover *seen, const uint32_t *before, const uint32_t *call,
                            const uint32_t *after)
{
    const uint32_t *hub = before + hub_place(before, call[C_TARGET]);
    uint32_t out = blocks_out(before, call[C_TARGET]);
    uint32_t block = task_word(after, call[C_CALLER], T_WORD);

    hit(seen, BLOCK_GOT_0 + block);
    hit_mode(seen, call, BLOCK_GOT_W);
    hit_if(seen, out == 0, BLOCK_GOT_FIRST);
    hit_if(seen, hub[H_COUNT] == 1, BLOCK_GOT_LAST);
    hit_if(seen, out >> block != 0, BLOCK_GOT_BELOW);
    hit_if(seen, block > 0 && hub[H_COUNT] > 1, BLOCK_GOT_BETWEEN);
}

/* A put that FAILs: its number isn't out. */
static void cover_no_block(cover *seen, const uint32_t *before, const uint32_t *call)
{
    uint32_t limit = before[hub_place(before, call[C_TARGET]) + H_LIMIT], number = call[C_WORD];
    int awaited = before[list_place(before, call[C_TARGET])] != 0;
    int out = number < limit && (blocks_out(before, call[C_TARGET]) >> number & 1) != 0;

    hit_if(seen, awaited, BLOCK_FAIL_AWAITED);
    if (call[C_HIGH] != 0) {
        hit_mode(seen, call, BLOCK_HIGH_FAIL_W);
        hit_if(seen, out, BLOCK_HIGH_OUT);
        hit_if(seen, number < limit && !out, BLOCK_HIGH_IN);
        hit_if(seen, out && awaited, BLOCK_HIGH_AWAITED);
        return;
    }
    hit_mode(seen, call, number < limit    ? BLOCK_IN_FAIL_W
                         : number == limit ? BLOCK_LIMIT_FAIL_W
                                           : BLOCK_PAST_FAIL_W);
    hit_if(seen, number >= limit && number < BLOCKS_MAX, BLOCK_PAST_FAIL_STORE);
    hit_if(seen, number == BLOCKS_MAX, BLOCK_PAST_FAIL_8);
}

/* A put that is met: its block is in then, or with the first getter. */
static void cover_put_block(cover *seen, const uint32_t *before, const uint32_t *call,
                            second_reply reply)
{
    const uint32_t *hub = before + hub_place(before, call[C_TARGET]);
    const uint32_t *list = before + list_place(before, call[C_TARGET]);
    uint32_t first = list[0] - 1; /* if there is one */
    int had_word = task_message(before, call[C_CALLER]) != 0;

    if (list[0] == 0) {
        hit(seen, BLOCK_FREED_0 + call[C_WORD]);
        hit_mode(seen, call, BLOCK_FREED_W);
        hit_if(seen, hub[H_COUNT] == 0, BLOCK_FREED_FIRST);
        hit_if(seen, hub[H_COUNT] + 1 == hub[H_LIMIT], BLOCK_FREED_LAST);
        hit_if(seen, had_word, BLOCK_FREED_WORD);
        return;
    }
    hit(seen, BLOCK_PASSED_0 + call[C_WORD]);
    hit_mode(seen, call, BLOCK_PASSED_W);
    hit_if(seen, had_word, BLOCK_PASSED_WORD);
    hit_if(seen, task_word(before, first, T_SUSPENDED) == 1, BLOCK_PASSED_SUSPENDED);
    hit(seen, task_word(before, first, T_TICKS) > 0 ? BLOCK_PASSED_TICKS : BLOCK_PASSED_NO_LIMIT);
    hit_if(seen, reply.next == list[0], BLOCK_PASSED_URGENT);
    hit_if(seen, list[1] != 0, BLOCK_PASSED_LEAVES);
    hit_if(seen, length_of(list) == 15, BLOCK_PASSED_15);
}

/* What the products of kind, side and outcome don't say of a request to a Memory. */
static void cover_blocks(cover *seen, const uint32_t *before, const uint32_t *call,
                         second_reply reply, const uint32_t *after)
{
    if (call[C_SIDE] == GET && reply.answer == OK)
        cover_got_block(seen, before, call, after);
    else if (call[C_SIDE] == GET)
        hit(seen, BLOCK_NONE_1 + before[hub_place(before, call[C_TARGET]) + H_LIMIT] - 1);
    else if (reply.answer == OK)
        cover_put_block(seen, before, call, reply);
    else
        cover_no_block(seen, before, call);
}

/* What becomes of the messages in a hub request; `first` is the number of the waiter met
 * plus 1, or 0. */
static void cover_put_message(cover *seen, uint32_t kind, const uint32_t *call, uint32_t first,
                              int waits)
{
    if (kind == PORT)
        hit_message(seen, waits ? PORT_PUT_WAITS : PORT_PUT_MEETS, sent(call));
    else if (kind == FIFO)
        hit_message(seen, waits ? FIFO_PUT_WAITS : first != 0 ? FIFO_PUT_MEETS : FIFO_PUT_HELD,
                    sent(call));
    else if (kind == BOARD)
        hit_message(seen, first != 0 ? BOARD_MEETS : BOARD_UPDATE, sent(call));
    else if (kind != MEMORY) /* there it is a number, which cover_put_block looks at */
        hit_message(seen, waits ? PUT_IGNORED_WAITS : PUT_IGNORED, sent(call));
}

static void cover_got_message(cover *seen, uint32_t kind, const uint32_t *call, uint32_t first,
                              const uint32_t *before, const uint32_t *after)
{
    uint64_t got = task_message(after, call[C_CALLER]);

    if (kind == PORT)
        hit_message(seen, PORT_GET_MEETS, got);
    if (kind == FIFO)
        hit_message(seen, first != 0 ? FIFO_GET_MEETS : FIFO_GET_ALONE, got);
    if (kind == FIFO && first != 0)
        hit_message(seen, FIFO_APPENDS, task_message(before, first - 1));
    if (kind == BOARD)
        hit_message(seen, BOARD_READ, got);
}

static void cover_messages(cover *seen, const uint32_t *before, const uint32_t *call,
                           second_reply reply, const uint32_t *after)
{
    uint32_t kind = after[hub_place(after, call[C_TARGET]) + H_KIND];
    uint32_t first = before[list_place(before, call[C_TARGET])];
    int waits = task_word(after, call[C_CALLER], T_STATE) == WAITING;

    if (first != 0 && task_word(after, first - 1, T_STATE) == WAITING)
        first = 0; /* not met */
    hit_if(seen, call[C_HIGH] == UINT32_MAX, HIGH_MAX);
    hit_if(seen, call[C_HIGH] == 1, HIGH_1);
    if (call[C_SIDE] == WIPE)
        hit_message(seen, WIPE_IGNORED, sent(call));
    else if (call[C_SIDE] == GET)
        hit_message(seen, GET_IGNORED, sent(call));
    else if (reply.answer == OK || waits)
        cover_put_message(seen, kind, call, first, waits);
    if (call[C_SIDE] == GET && reply.answer == OK)
        cover_got_message(seen, kind, call, first, before, after);
}

/* A waiting put whose word is kept is over without being met. */
static void cover_lost(cover *seen, const uint32_t *before, uint32_t task, message_path path)
{
    uint32_t kind = kind_awaited(before, task);

    if (task_word(before, task, T_SIDE) == PUT && (kind == PORT || kind == FIFO))
        hit_message(seen, path, task_message(before, task));
}

static void cover_request(cover *seen, const uint32_t *before, const uint32_t *call,
                          second_reply reply, const uint32_t *after)
{
    uint32_t kind = after[hub_place(after, call[C_TARGET]) + H_KIND], side = call[C_SIDE];
    uint32_t count = before[hub_place(before, call[C_TARGET]) + H_COUNT], mode = call[C_MODE];
    uint32_t first = before[list_place(before, call[C_TARGET])];
    hub_outcome outcome;

    hit_if(seen, reply.next == 0, NONE_LEFT);
    cover_messages(seen, before, call, reply, after);
    if (kind == BOARD)
        cover_board(seen, before, call, reply, after);
    if (kind == MEMORY)
        cover_blocks(seen, before, call, reply, after);
    if (side == WIPE)
        return;
    if (reply.answer == OK && first != 0 && task_word(after, first - 1, T_STATE) == READY)
        outcome = MET_WITH_WAITER;
    else if (reply.answer == OK)
        outcome = MET_ALONE;
    else if ((kind == RESOURCE && (side == PUT || count == call[C_CALLER] + 1)) ||
             (kind == MEMORY && side == PUT))
        outcome = mode == W ? FAIL_W : mode == NW ? FAIL_NW : FAIL_WT;
    else
        outcome = mode == W ? NOT_NOW_W : mode == NW ? NOT_NOW_NW : NOT_NOW_WT;
    hit(seen, request_row(kind, side, outcome));

    if (outcome == NOT_NOW_W || outcome == NOT_NOW_WT) {
        cover_waits(seen, call, after);
        cover_ahead(seen, call, reply, after);
    } else if (after[list_place(after, call[C_TARGET])] != 0 &&
               (kind != MEMORY || outcome < FAIL_W)) { /* a Memory's has a row above */
        hit(seen, reply.answer == OK      ? NOT_AHEAD_MET
                  : outcome == NOT_NOW_NW ? NOT_AHEAD_NW
                                          : NOT_AHEAD_FAIL);
    }
    if (outcome == MET_WITH_WAITER)
        cover_met_waiter(seen, first - 1, kind, reply, after);
    hit_if(seen, reply.answer == OK && kind == FIFO && side == PUT && count == 7 && first == 0,
           FIFO_OF_8);
    hit_if(seen, reply.answer == OK && (kind == FIFO || kind == PORT) && side == GET &&
                     task_message(after, call[C_CALLER]) == 0,
           WORD_0_PASSED);
}

static void cover_start(cover *seen, const uint32_t *before, const uint32_t *call)
{
    uint32_t target = call[C_TARGET], state = task_word(before, target, T_STATE);

    hit_if(seen, state == INACTIVE, START_OK);
    hit_if(seen, state == READY && target != call[C_CALLER], START_READY);
    hit_if(seen, state == WAITING, START_WAITING);
    hit_if(seen, state == SLEEPING, START_SLEEPING);
    hit_if(seen, target == call[C_CALLER], START_CALLER);
}

/* The Resources that a task owns, in hub number order, and their first waiters. */
typedef struct {
    uint32_t owned, met;
    uint32_t first[HUBS];  /* of those that somebody waits for: the first waiter */
    uint32_t second[HUBS]; /* the one behind it, plus 1, or 0 */
} locks;

static locks locks_of(const uint32_t *table, uint32_t task)
{
    locks of = {0, 0, {0}, {0}};

    for (uint32_t hub = 0; hub < table[HUBS_IN_USE_AT]; hub++) {
        const uint32_t *list = table + list_place(table, hub);
        if (!owns(table, task, hub))
            continue;
        of.owned++;
        if (list[0] != 0) {
            of.second[of.met] = list[1];
            of.first[of.met++] = list[0] - 1;
        }
    }
    return of;
}

static void cover_passed(cover *seen, const uint32_t *before, const locks *of, uint32_t hub)
{
    for (uint32_t i = 0; i < of->met; i++) {
        uint32_t waiter = of->first[i], last = i > 0 ? of->first[i - 1] : waiter;
        hit_if(seen, task_word(before, waiter, T_SUSPENDED) == 1, STOP_MEETS_SUSPENDED);
        hit(seen, task_word(before, waiter, T_TICKS) > 0 ? STOP_MEETS_TICKS : STOP_MEETS_NO_LIMIT);
        hit_if(seen, of->second[i] != 0, STOP_LEAVES_SECOND);
        hit_if(seen, last > waiter && urgency(before, last) == urgency(before, waiter),
               STOP_MEETS_EQUALS);
        hit_if(seen, hub != 0 && owns(before, waiter, hub - 1), STOP_RING);
    }
}

/* The row for one Resource is followed by those for two and for more. */
static void cover_stop_owner(cover *seen, const uint32_t *before, const uint32_t *call,
                             second_reply reply)
{
    uint32_t target = call[C_TARGET], state = task_word(before, target, T_STATE);
    const locks of = locks_of(before, target);

    if (of.owned == 0) {
        hit(seen, STOP_OWNS_0);
        return;
    }
    hit(seen, (of.met == 0 ? STOP_OWNS_1 : STOP_AWAITED_1) + (of.owned < 3 ? of.owned : 3) - 1);
    hit_if(seen, state == READY, STOP_OWNER_READY);
    hit_if(seen, state == WAITING, STOP_OWNER_WAITING);
    hit_if(seen, state == SLEEPING, STOP_OWNER_SLEEPING);
    hit_if(seen, task_word(before, target, T_SUSPENDED) == 1, STOP_OWNER_SUSPENDED);
    hit_if(seen, of.met == 1, STOP_MEETS_1);
    hit_if(seen, of.met == 2, STOP_MEETS_2);
    hit_if(seen, of.met >= 3 && of.met < 8, STOP_MEETS_3);
    hit_if(seen, of.met >= 8 && of.met < 14, STOP_MEETS_8);
    hit_if(seen, of.met == 14, STOP_MEETS_14);
    hit_if(seen, of.met > 0 && of.met < of.owned, STOP_PASSES_AND_FREES);
    hit_if(seen, reply.next != 0 && task_word(before, reply.next - 1, T_STATE) == WAITING,
           STOP_MEETS_URGENT);
    cover_passed(seen, before, &of, task_word(before, target, T_HUB));
}

static void cover_stop(cover *seen, const uint32_t *before, const uint32_t *call,
                       second_reply reply)
{
    uint32_t target = call[C_TARGET], state = task_word(before, target, T_STATE);
    int suspended = task_word(before, target, T_SUSPENDED) == 1;

    hit_if(seen, state == INACTIVE, STOP_INACTIVE);
    hit_if(seen, target == call[C_CALLER], STOP_CALLER);
    hit_if(seen, target == call[C_CALLER] && locks_of(before, target).owned > 0,
           STOP_CALLER_OWNER);
    if (state == INACTIVE || target == call[C_CALLER])
        return;
    hit_if(seen, state == READY, STOP_READY);
    hit_if(seen, state == SLEEPING, STOP_SLEEPING);
    hit_if(seen, suspended && state == READY, STOP_SUSPENDED_READY);
    hit_if(seen, suspended && state == WAITING, STOP_SUSPENDED_WAITING);
    hit_if(seen, suspended && state == SLEEPING, STOP_SUSPENDED_SLEEPING);
    cover_stop_owner(seen, before, call, reply);
    if (state == WAITING)
        cover_lost(seen, before, target, PUTTER_WITHDRAWN);
    if (state == WAITING)
        hit(seen, WITHDRAWN_ROWS + kind_side(kind_awaited(before, target),
                                             task_word(before, target, T_SIDE)));
}

static void cover_suspend(cover *seen, const uint32_t *before, const uint32_t *call)
{
    uint32_t target = call[C_TARGET], state = task_word(before, target, T_STATE);
    int suspended = task_word(before, target, T_SUSPENDED) == 1, caller = target == call[C_CALLER];

    hit_if(seen, state == INACTIVE, SUSPEND_INACTIVE);
    hit_if(seen, suspended, SUSPEND_SUSPENDED);
    hit_if(seen, caller, SUSPEND_CALLER);
    hit_if(seen, state == READY && !suspended && !caller, SUSPEND_READY);
    hit_if(seen, state == WAITING && !suspended, SUSPEND_WAITING);
    hit_if(seen, state == SLEEPING && !suspended, SUSPEND_SLEEPING);
}

static void cover_resume(cover *seen, const uint32_t *before, const uint32_t *call,
                         second_reply reply)
{
    uint32_t target = call[C_TARGET], state = task_word(before, target, T_STATE);
    int suspended = task_word(before, target, T_SUSPENDED) == 1, caller = target == call[C_CALLER];

    hit_if(seen, suspended && state == READY, RESUME_READY);
    hit_if(seen, suspended && state == READY && reply.next == target + 1, RESUME_URGENT);
    hit_if(seen, suspended && state == WAITING, RESUME_WAITING);
    hit_if(seen, suspended && state == SLEEPING, RESUME_SLEEPING);
    hit_if(seen, !suspended && state != INACTIVE && !caller, RESUME_NOT_SUSPENDED);
    hit_if(seen, state == INACTIVE, RESUME_INACTIVE);
    hit_if(seen, caller, RESUME_CALLER);
}

static void cover_yield(cover *seen, const uint32_t *before, const uint32_t *call)
{
    uint32_t own = urgency(before, call[C_CALLER]), equals = 0, suspended = 0;
    const uint32_t *entry = before + ready_place(before), *end = entry + LIST_WORDS;

    while (*entry != call[C_CALLER] + 1)
        entry++;
    for (entry++; entry < end && *entry != 0; entry++) {
        if (urgency(before, *entry - 1) != own)
            break;
        equals++;
        suspended += task_word(before, *entry - 1, T_SUSPENDED);
    }
    hit_if(seen, equals == 0, YIELD_ALONE);
    hit_if(seen, equals > suspended, YIELD_EQUALS);
    hit_if(seen, equals > 0 && equals == suspended, YIELD_SUSPENDED);
}

static void cover_tick(cover *seen, const uint32_t *before)
{
    uint32_t out = 0;

    for (uint32_t task = 0; task < before[TASKS_IN_USE_AT]; task++) {
        int suspended = task_word(before, task, T_SUSPENDED) == 1;
        if (task_word(before, task, T_TICKS) != 1)
            continue;
        out++;
        if (task_word(before, task, T_STATE) == SLEEPING) {
            hit(seen, TICK_SLEEPER);
            hit_if(seen, suspended, TICK_SUSPENDED_SLEEPING);
        } else {
            uint32_t hub = task_word(before, task, T_HUB) - 1;
            cover_lost(seen, before, task, PUTTER_TIMES_OUT);
            hit(seen, TIMEOUT_ROWS + kind_side(before[hub_place(before, hub) + H_KIND],
                                               task_word(before, task, T_SIDE)));
            hit_if(seen, suspended, TICK_SUSPENDED_WAITING);
            hit_if(seen, suspended && before[hub_place(before, hub) + H_KIND] == BOARD,
                   READ_SUSPENDED_TIMED_OUT);
            hit_if(seen, suspended && before[hub_place(before, hub) + H_KIND] == MEMORY,
                   BLOCK_SUSPENDED_TIMED_OUT);
        }
    }
    hit(seen, out == 0 ? TICK_NOTHING : out == 1 ? TICK_ONE : TICK_MORE);
    hit_if(seen, !somebody_runs(before), TICK_NOBODY_RUNS);
}

static void cover_adds(cover *seen, const uint32_t *call, second_reply reply, const uint32_t *after)
{
    if (call[C_SERVICE] == ADD_TASK) {
        hit(seen, call[C_SIDE] == 0 ? ADD_TASK_INACTIVE : ADD_TASK_STARTED);
        hit_if(seen, reply.next == after[TASKS_IN_USE_AT], ADD_TASK_URGENT);
        hit_if(seen, call[C_TARGET] == PRIORITY_MAX, ADD_TASK_255);
        hit_if(seen, after[TASKS_IN_USE_AT] == TASKS, ADD_TASK_16TH);
    } else {
        hit(seen, ADD_EVENT + call[C_TARGET] - EVENT);
        hit_if(seen, call[C_TARGET] == SEMAPHORE && call[C_TICKS] == SEMAPHORE_MAX,
               ADD_SEMAPHORE_MAX);
        hit_if(seen, call[C_TARGET] == MEMORY && call[C_TICKS] == 1, ADD_MEMORY_1);
        hit_if(seen, call[C_TARGET] == MEMORY && call[C_TICKS] == BLOCKS_MAX, ADD_MEMORY_8);
        hit_if(seen, after[HUBS_IN_USE_AT] == HUBS, ADD_HUB_16TH);
    }
}

static void cover_accepted(cover *seen, const uint32_t *before, const uint32_t *call,
                           second_reply reply, const uint32_t *after)
{
    hit(seen, SERVICE_ROWS + call[C_SERVICE]);
    hit_if(seen, call[C_HIGH] != 0, HIGH_SERVICE_ROWS + call[C_SERVICE]);
    if (call[C_SERVICE] >= HUB_REQUEST && call[C_SERVICE] <= SLEEP &&
        task_message(before, call[C_CALLER]) != 0)
        hit(seen, CLEARED_ROWS + (call[C_SERVICE] - HUB_REQUEST) * CLASSES +
                      class_of(task_message(before, call[C_CALLER])));
    hit_if(seen, reply.next != 0 && reply.next != after[ready_place(after)], NEXT_NOT_FIRST);
    cover_not_ahead(seen, before, call, reply, after);
    cover_inherited(seen, before, call, reply, after);
    switch (call[C_SERVICE]) {
    case HUB_REQUEST:
        cover_request(seen, before, call, reply, after);
        break;
    case START:
        cover_start(seen, before, call);
        break;
    case STOP:
        cover_stop(seen, before, call, reply);
        break;
    case SUSPEND:
        cover_suspend(seen, before, call);
        break;
    case RESUME:
        cover_resume(seen, before, call, reply);
        break;
    case YIELD:
        cover_yield(seen, before, call);
        break;
    case SLEEP:
        hit_if(seen, call[C_TICKS] == 1, SLEEP_1);
        hit_if(seen, call[C_TICKS] == TICKS_MAX, SLEEP_MAX);
        hit_if(seen, reply.next == 0, NONE_LEFT);
        break;
    case TICK:
        cover_tick(seen, before);
        break;
    case ADD_TASK:
    case ADD_HUB:
        cover_adds(seen, call, reply, after);
        break;
    }
}

/* ---- Refused calls ----------------------------------------------------- */

enum { NO_CAUSE = 0 };

/* The row for 0 ticks is followed by those for 1,000,001 and for more. */
static size_t ticks_cause(uint32_t ticks, size_t zero)
{
    return ticks == 0               ? zero
           : ticks == TICKS_MAX + 1 ? zero + 1
           : ticks > TICKS_MAX      ? zero + 2
                                    : NO_CAUSE;
}

/* Where there is no hub, side 3 is no cause of its own. */
static size_t request_cause(const uint32_t *table, const uint32_t *call)
{
    uint32_t kind = call[C_TARGET] < table[HUBS_IN_USE_AT]
                        ? table[hub_place(table, call[C_TARGET]) + H_KIND]
                        : (uint32_t)BOARD;

    if (call[C_SIDE] < PUT || call[C_SIDE] > WIPE)
        return call[C_SIDE] == 0 ? SIDE_0 : SIDE_ABOVE;
    if (call[C_SIDE] == WIPE && kind == MEMORY)
        return SIDE_3_MEMORY;
    if (call[C_SIDE] == WIPE && kind != BOARD)
        return SIDE_3_EVENT + kind - EVENT;
    if (call[C_MODE] < W || call[C_MODE] > WT)
        return call[C_MODE] == 0 ? MODE_0 : MODE_ABOVE;
    if (call[C_MODE] == WT)
        return ticks_cause(call[C_TICKS], WT_0);
    return call[C_TICKS] == 0 ? NO_CAUSE : call[C_MODE] == W ? W_TICKS : NW_TICKS;
}

static size_t add_hub_cause(const uint32_t *call)
{
    uint32_t limit = call[C_TICKS], start = call[C_WORD];

    switch (call[C_TARGET]) {
    case EVENT:
        return limit == 0  ? EVENT_LIMIT_0
               : limit > 1 ? EVENT_LIMIT
               : start     ? EVENT_START
                           : NO_CAUSE;
    case SEMAPHORE:
        return limit == 0               ? SEMAPHORE_LIMIT_0
               : limit > SEMAPHORE_MAX ? SEMAPHORE_LIMIT
               : start > limit         ? SEMAPHORE_START
                                       : NO_CAUSE;
    case PORT:
        return limit != 0 ? PORT_LIMIT : start ? PORT_START : NO_CAUSE;
    case FIFO:
        return limit == 0         ? FIFO_LIMIT_0
               : limit > FIFO_MAX ? FIFO_LIMIT
               : start            ? FIFO_START
                                  : NO_CAUSE;
    case RESOURCE:
        return limit == 0  ? RESOURCE_LIMIT_0
               : limit > 1 ? RESOURCE_LIMIT
               : start     ? RESOURCE_START
                           : NO_CAUSE;
    case BOARD:
        return limit == 0  ? BOARD_LIMIT_0
               : limit > 1 ? BOARD_LIMIT
               : start     ? BOARD_START
                           : NO_CAUSE;
    case MEMORY:
        return limit == 0           ? MEMORY_LIMIT_0
               : limit > BLOCKS_MAX ? MEMORY_LIMIT
               : start == 0         ? MEMORY_START_0
               : start < limit      ? MEMORY_START_BELOW
               : start > limit      ? MEMORY_START_ABOVE
                                    : NO_CAUSE;
    default:
        return call[C_TARGET] == 0 ? KIND_0 : KIND_ABOVE;
    }
}

/* The first wrong argument, or NO_CAUSE. */
static size_t argument_cause(const uint32_t *table, const uint32_t *call)
{
    switch (call[C_SERVICE]) {
    case HUB_REQUEST:
        return request_cause(table, call);
    case SLEEP:
        return ticks_cause(call[C_TICKS], SLEEP_0);
    case ADD_TASK:
        if (call[C_TARGET] > PRIORITY_MAX)
            return call[C_TARGET] == PRIORITY_MAX + 1 ? PRIORITY_256 : PRIORITY_ABOVE;
        return call[C_SIDE] > 1 ? TASK_SIDE : NO_CAUSE;
    case ADD_HUB:
        return add_hub_cause(call);
    default:
        return NO_CAUSE;
    }
}

static int target_missing(const uint32_t *table, const uint32_t *call)
{
    if (call[C_SERVICE] == HUB_REQUEST)
        return call[C_TARGET] >= table[HUBS_IN_USE_AT];
    return call[C_SERVICE] >= START && call[C_SERVICE] <= RESUME &&
           call[C_TARGET] >= table[TASKS_IN_USE_AT];
}

static void cover_not_running(cover *seen, const uint32_t *table, const uint32_t *call)
{
    if (!somebody_runs(table)) {
        hit(seen, NOBODY_RUNS);
        hit_if(seen, call[C_CALLER] == UINT32_MAX, NOBODY_RUNS_MAX);
    } else if (call[C_CALLER] >= table[TASKS_IN_USE_AT]) {
        hit(seen, CALLER_NO_TASK);
    } else {
        hit(seen, CALLER_REQUEST + call[C_SERVICE] - HUB_REQUEST);
        hit_if(seen, call[C_SERVICE] == HUB_REQUEST && waits_behind(table, call[C_CALLER]) &&
                         task_word(table, call[C_CALLER], T_HUB) - 1 == call[C_TARGET],
               NOT_AHEAD_4);
    }
    hit_if(seen, target_missing(table, call), CALLER_AND_5);
    hit_if(seen, argument_cause(table, call) != NO_CAUSE, CALLER_AND_6);
}

/* A hub request that is refused for its high word and nothing else. */
static void cover_high(cover *seen, const uint32_t *table, const uint32_t *call)
{
    uint32_t kind = table[hub_place(table, call[C_TARGET]) + H_KIND];

    hit(seen, HIGH_REFUSED_ROWS + (kind - EVENT) * WIPE + call[C_SIDE] - PUT);
    hit_if(seen, call[C_HIGH] == UINT32_MAX, HIGH_MAX);
    hit_if(seen, call[C_HIGH] == 1, HIGH_1);
}

static void cover_refused(cover *seen, const uint32_t *table, const uint32_t *call,
                          uint32_t refusal)
{
    switch (refusal) {
    case NOT_WELL_FORMED:
        hit_if(seen, call[C_SERVICE] > ADD_HUB, DAMAGED_AND_3);
        hit_if(seen, call[C_SERVICE] == HUB_REQUEST && call[C_HIGH] != 0, HIGH_AND_2);
        break;
    case NO_SUCH_SERVICE:
        hit_if(seen, call[C_HIGH] != 0, HIGH_AND_3);
        hit(seen, call[C_SERVICE] == ADD_HUB + 1 ? SERVICE_11 : SERVICE_ABOVE);
        break;
    case NOT_RUNNING:
        cover_not_running(seen, table, call);
        hit_if(seen, call[C_SERVICE] == HUB_REQUEST && call[C_HIGH] != 0, HIGH_AND_4);
        break;
    case NOT_IN_USE:
        hit(seen, TARGET_REQUEST + call[C_SERVICE] - HUB_REQUEST);
        hit_if(seen, argument_cause(table, call) != NO_CAUSE, TARGET_AND_6);
        hit_if(seen, call[C_SERVICE] == HUB_REQUEST && call[C_SIDE] == WIPE, TARGET_WIPE);
        hit_if(seen, call[C_SERVICE] == HUB_REQUEST && call[C_HIGH] != 0, HIGH_AND_5);
        break;
    case BAD_ARGUMENT:
        if (argument_cause(table, call) == NO_CAUSE)
            cover_high(seen, table, call);
        else
            hit(seen, argument_cause(table, call));
        hit_if(seen, call[C_SERVICE] == HUB_REQUEST && call[C_HIGH] != 0 &&
                         argument_cause(table, call) != NO_CAUSE,
               HIGH_AND_6);
        hit_if(seen, call[C_SERVICE] == HUB_REQUEST &&
                         table[list_place(table, call[C_TARGET])] != 0,
               NOT_AHEAD_6);
        hit_if(seen, call[C_SERVICE] == HUB_REQUEST && call[C_SIDE] == WIPE &&
                         table[hub_place(table, call[C_TARGET]) + H_KIND] == BOARD &&
                         argument_cause(table, call) != NO_CAUSE,
               WIPE_ARGUMENT);
        hit_if(seen, call[C_SERVICE] == ADD_TASK && table[TASKS_IN_USE_AT] == TASKS,
               TASK_ARGUMENT_AND_7);
        hit_if(seen, call[C_SERVICE] == ADD_HUB && table[HUBS_IN_USE_AT] == HUBS,
               HUB_ARGUMENT_AND_7);
        break;
    case TABLE_FULL:
        hit(seen, call[C_SERVICE] == ADD_TASK ? FULL_TASKS : FULL_HUBS);
        hit_if(seen, call[C_HIGH] != 0, HIGH_AND_7);
        break;
    }
}

void cover_call(cover *seen, const uint32_t *before, const uint32_t call[8], second_reply reply,
                const uint32_t *after)
{
    if (reply.refusal == ACCEPTED)
        cover_accepted(seen, before, call, reply, after);
    else
        cover_refused(seen, before, call, reply.refusal);
}

void cover_call_length(cover *seen, size_t words)
{
    hit_if(seen, words == 0, LENGTH_0);
    hit_if(seen, words == WORDS - 1, LENGTH_599);
    hit_if(seen, words == WORDS + 1, LENGTH_601);
    hit_if(seen, words == WORDS_2 - 1, LENGTH_743);
    hit_if(seen, words == WORDS_2 + 1, LENGTH_745);
}

void cover_call_byte_length(cover *seen, size_t bytes)
{
    hit_if(seen, bytes == 0, BYTES_0);
    hit_if(seen, bytes == BYTES - 1, BYTES_2399);
    hit_if(seen, bytes == BYTES + 1, BYTES_2401);
    hit_if(seen, bytes == BYTES_2 - 1, BYTES_2975);
    hit_if(seen, bytes == BYTES_2 + 1, BYTES_2977);
}

void cover_summary(cover *seen, const uint32_t *table, size_t words, second_summary_reply reply)
{
    hit_if(seen, layout_for(words) == NULL, SUMMARY_LENGTH);
    hit_if(seen, reply.refusal == NOT_WELL_FORMED, SUMMARY_DAMAGED);
    hit_if(seen, reply.refusal == NOT_IN_USE, SUMMARY_TARGET);
    if (reply.refusal != ACCEPTED)
        return;
    hit(seen, reply.count == 0   ? SUMMARY_0
              : reply.count == 1 ? SUMMARY_1
              : reply.count < 8  ? SUMMARY_2
                                 : SUMMARY_8);
    for (uint32_t task = 0; task < TASKS; task++)
        if ((reply.mask >> task & 1) != 0 && task_word(table, task, T_SUSPENDED) == 1) {
            hit(seen, SUMMARY_SUSPENDED);
            break;
        }
}

static size_t further_digits(uint32_t number)
{
    size_t digits = 0;
    while (number >= 10) {
        number /= 10;
        digits++;
    }
    return digits;
}

/* The row for none is followed by those for one, for some and for 16. */
static size_t size_row(uint32_t number, size_t none)
{
    return number == 0 ? none : number == 1 ? none + 1 : number < TASKS ? none + 2 : none + 3;
}

static void cover_listed(cover *seen, const uint32_t *table)
{
    hit(seen, size_row(table[TASKS_IN_USE_AT], LISTING_TASKS_0));
    hit(seen, size_row(table[HUBS_IN_USE_AT], LISTING_HUBS_0));
    for (uint32_t task = 0; task < table[TASKS_IN_USE_AT]; task++) {
        hit_if(seen, task_word(table, task, T_STATE) != INACTIVE, LISTING_STARTED);
        hit(seen, LISTING_PRIORITY_1 + further_digits(task_word(table, task, T_PRIORITY)));
    }
    for (uint32_t number = 0; number < table[HUBS_IN_USE_AT]; number++) {
        const uint32_t *hub = table + hub_place(table, number);
        hit_if(seen, hub[H_COUNT] != hub[H_START], LISTING_COUNT);
        hit(seen, LISTING_EVENT + hub[H_KIND] - EVENT);
        hit(seen, LISTING_LIMIT_1 + further_digits(hub[H_LIMIT]));
        hit(seen, LISTING_START_1 + further_digits(hub[H_START]));
    }
}

void cover_listing(cover *seen, const uint32_t *table, size_t needed, size_t room,
                   second_listing_reply reply)
{
    hit_if(seen, reply.refusal == BAD_LENGTH, LISTING_LENGTH);
    hit_if(seen, reply.refusal == NOT_WELL_FORMED, LISTING_DAMAGED);
    hit_if(seen, reply.refusal == NOT_WELL_FORMED && room < 14, LISTING_DAMAGED_AND_8);
    hit_if(seen, reply.refusal == SHORT_BUFFER, LISTING_8);
    hit_if(seen, reply.refusal == SHORT_BUFFER && room == 0, LISTING_8_NONE);
    hit_if(seen, reply.refusal == SHORT_BUFFER && room + 1 == needed, LISTING_8_BY_1);
    if (reply.refusal != ACCEPTED)
        return;
    hit(seen, LISTING_ACCEPTED);
    hit(seen, room == needed ? LISTING_EXACT : LISTING_PAST);
    hit_if(seen, reply.length == LISTING_MOST, LISTING_MOST_BYTES);
    cover_listed(seen, table);
}

void cover_listing_byte_length(cover *seen) { hit(seen, LISTING_BYTES); }

void cover_pair(cover *seen, cover_relation relation) { hit(seen, PAIR_STRIPPED + relation); }

void cover_damage(cover *seen, size_t family)
{
    hit(seen, DAMAGE_ROWS + family);
    hit(seen, BLANK_DAMAGED);
}

/* ---- Moves ------------------------------------------------------------- */

static void cover_moved_tasks(cover *seen, const uint32_t *from)
{
    int waits = 0, sleeps = 0, suspended = 0, received = 0, port = 0, fifo = 0;

    for (uint32_t task = 0; task < from[TASKS_IN_USE_AT]; task++) {
        uint32_t state = task_word(from, task, T_STATE);
        int word = task_message(from, task) != 0;
        uint32_t kind = state == WAITING
                            ? from[hub_place(from, task_word(from, task, T_HUB) - 1) + H_KIND]
                            : 0;
        waits |= state == WAITING;
        sleeps |= state == SLEEPING;
        suspended |= task_word(from, task, T_SUSPENDED) == 1;
        received |= state == READY && word;
        port |= kind == PORT && word;
        fifo |= kind == FIFO && word;
    }
    hit_if(seen, waits, MOVE_WAITER);
    hit_if(seen, sleeps, MOVE_SLEEPER);
    hit_if(seen, suspended, MOVE_SUSPENDED);
    hit_if(seen, received, MOVE_RECEIVED);
    hit_if(seen, port, MOVE_PORT_PUTTER);
    hit_if(seen, fifo, MOVE_FIFO_PUTTER);
}

static void cover_moved_hubs(cover *seen, const uint32_t *from)
{
    int held = 0, full = 0, board = 0, owned = 0, many = 0, out = 0, out_8 = 0;

    for (uint32_t number = 0; number < from[HUBS_IN_USE_AT]; number++) {
        const uint32_t *hub = from + hub_place(from, number);
        held |= hub[H_KIND] == FIFO && hub[H_COUNT] > 0;
        full |= hub[H_KIND] == FIFO && hub[H_COUNT] == 8;
        board |= hub[H_KIND] == BOARD && hub[H_COUNT] == 1;
        owned |= hub[H_KIND] == RESOURCE && hub[H_COUNT] > 0;
        out |= hub[H_KIND] == MEMORY && hub[H_COUNT] < hub[H_LIMIT];
        out_8 |= hub[H_KIND] == MEMORY && hub[H_COUNT] == 0 && hub[H_LIMIT] == 8;
        many |= length_of(from + list_place(from, number)) >= 8;
    }
    hit_if(seen, held, MOVE_HELD);
    hit_if(seen, full, MOVE_HELD_8);
    hit_if(seen, board, MOVE_BOARD);
    hit_if(seen, out, MOVE_BLOCKS);
    hit_if(seen, out_8, MOVE_BLOCKS_8);
    hit_if(seen, owned, MOVE_OWNED);
    hit_if(seen, many, MOVE_8_WAIT);
}

/* Where the one high word of an edition 2 table stands. */
static void cover_only_high(cover *seen, const uint32_t *from)
{
    for (uint32_t task = 0; task < from[TASKS_IN_USE_AT]; task++) {
        if (task_message(from, task) >> 32 == 0)
            continue;
        uint32_t hub = task_word(from, task, T_HUB);
        hit(seen, hub == 0 ? MOVE_9_READY
                  : from[hub_place(from, hub - 1) + H_KIND] == PORT ? MOVE_9_PORT
                                                                    : MOVE_9_FIFO);
    }
    for (uint32_t hub = 0; hub < from[HUBS_IN_USE_AT]; hub++)
        for (uint32_t i = 0; i < HELD_MOST; i++)
            if (message_at(from, held_place(from, hub, i)) >> 32 != 0)
                hit(seen, from[hub_place(from, hub) + H_KIND] == BOARD ? MOVE_9_BOARD
                                                                       : MOVE_9_HELD_1 + i);
}

void cover_move(cover *seen, const uint32_t *from, const cover_moved *move)
{
    const layout *of = &layouts[seen->edition - EDITION_1];
    const layout *other = &layouts[EDITION_2 - seen->edition];
    int source = move->from_words != of->words, to = move->to_words != other->words;

    switch (move->refusal) {
    case ACCEPTED:
        hit(seen, MOVE_DONE);
        hit_if(seen, from[TASKS_IN_USE_AT] == 0, MOVE_NO_TASK);
        hit_if(seen, from[TASKS_IN_USE_AT] == TASKS, MOVE_16_TASKS);
        hit_if(seen, from[HUBS_IN_USE_AT] == 0, MOVE_NO_HUB);
        hit_if(seen, from[HUBS_IN_USE_AT] == HUBS, MOVE_16_HUBS);
        cover_moved_tasks(seen, from);
        cover_moved_hubs(seen, from);
        break;
    case BAD_LENGTH:
        hit(seen, source && to ? MOVE_1_BOTH : source ? MOVE_1_SOURCE : MOVE_1_DESTINATION);
        hit_if(seen, !source && move->to_words == of->words, MOVE_1_SAME);
        hit_if(seen, !source && move->malformed, MOVE_1_AND_2);
        hit_if(seen, !source && !move->malformed && move->high_words > 0, MOVE_1_AND_9);
        break;
    case NOT_WELL_FORMED:
        hit(seen, MOVE_2);
        hit_if(seen, move->high_words > 0, MOVE_2_AND_9);
        break;
    case HIGH_WORD:
        hit(seen, MOVE_9);
        if (move->high_words == 1)
            cover_only_high(seen, from);
        break;
    }
}

void cover_move_back(cover *seen) { hit(seen, MOVE_BACK); }

void cover_move_bytes(cover *seen, size_t from_bytes, size_t to_bytes)
{
    size_t right = layouts[seen->edition - EDITION_1].words * 4;
    size_t right_to = layouts[EDITION_2 - seen->edition].words * 4;

    hit(seen, from_bytes != right ? MOVE_1_BYTES_SOURCE : MOVE_1_BYTES_TO);
    hit_if(seen, from_bytes + 1 == right || from_bytes == right + 1 || to_bytes + 1 == right_to ||
                     to_bytes == right_to + 1,
           MOVE_1_BY_1);
}

void cover_move_in_run(cover *seen, const uint32_t *from)
{
    hit(seen, MOVE_IN_RUN);
    hit_if(seen, somebody_in(from, WAITING), MOVE_IN_RUN_WAITING);
}

/* ---- Comparisons ------------------------------------------------------- */

/* At how many places two tables can differ: not in the contents, since T or H costs a word of
 * a record; and of the 256 words of the waiting lists in 16 (gen.h, gen_apart). */
static uint32_t differing_most(const layout *of)
{
    return of->words - TASKS_AT - (HUBS - 1) * LIST_WORDS;
}

static int differs(const cover_compared *of, size_t place)
{
    return of->first[place] != of->second[place];
}

/* Some word from one place up to another differs. */
static int some_differ(const cover_compared *of, size_t from, size_t to)
{
    return memcmp(of->first + from, of->second + from, (to - from) * sizeof *of->first) != 0;
}

static void cover_compared_bodies(cover *seen, const cover_compared *of)
{
    const layout *form = layout_for(of->first_words);

    hit_if(seen, differs(of, TASKS_IN_USE_AT), COMPARE_TASKS);
    hit_if(seen, differs(of, HUBS_IN_USE_AT), COMPARE_HUBS);
    hit_if(seen, some_differ(of, TASKS_AT, form->hubs_at), COMPARE_TASK);
    hit_if(seen, some_differ(of, form->hubs_at, form->ready_at), COMPARE_HUB);
    hit_if(seen, some_differ(of, form->ready_at, form->waiting_at), COMPARE_READY);
    hit_if(seen, some_differ(of, form->waiting_at, form->stores_at), COMPARE_WAITING);
    hit_if(seen, some_differ(of, form->stores_at, form->words), COMPARE_STORE);
    hit_if(seen, differs(of, form->words - 1), COMPARE_LAST);
    hit_if(seen, differs(of, form->words - 1) && of->reply.count == 1, COMPARE_LAST_ALONE);
}

static void cover_compared_message(cover *seen, const cover_compared *of, size_t place)
{
    int low = differs(of, place);
    int high = seen->edition == EDITION_2 && differs(of, place + 1);

    hit_if(seen, low && !high, COMPARE_LOW);
    hit_if(seen, high && !low, COMPARE_HIGH);
    hit_if(seen, high && low, COMPARE_PAIR);
}

static void cover_compared_messages(cover *seen, const cover_compared *of)
{
    for (uint32_t task = 0; task < TASKS; task++)
        cover_compared_message(seen, of, field_place(of->first, task, T_WORD));
    for (uint32_t i = 0; i < HUBS * HELD_MOST; i++)
        cover_compared_message(seen, of, held_place(of->first, i / HELD_MOST, i % HELD_MOST));
}

static void cover_compared_words(cover *seen, const cover_compared *of)
{
    for (size_t place = 0; place < of->first_words; place++) {
        uint32_t old = of->first[place], new = of->second[place];
        if (old == new)
            continue;
        hit_if(seen, old == 0, COMPARE_OLD_0);
        hit_if(seen, new == 0, COMPARE_NEW_0);
        hit_if(seen, old == UINT32_MAX, COMPARE_OLD_MAX);
        hit_if(seen, new == UINT32_MAX, COMPARE_NEW_MAX);
        hit_if(seen, (old ^ new) == 1, COMPARE_BIT_0);
        hit_if(seen, (old ^ new) == UINT32_C(1) << 31, COMPARE_BIT_31);
    }
}

static void cover_compared_tables(cover *seen, const cover_compared *of)
{
    uint32_t count = of->reply.count;
    size_t left = of->room - ENTRY_WORDS * (size_t)count;

    hit(seen, count == 0    ? COMPARE_0
              : count == 1  ? COMPARE_1
              : count < 10  ? COMPARE_2
              : count < 100 ? COMPARE_10
                            : COMPARE_100);
    hit_if(seen, count == differing_most(layout_for(of->first_words)), COMPARE_ALL);
    hit_if(seen, count == 0 && of->room == 0, COMPARE_NO_ROOM);
    hit_if(seen, count > 0 && left == 0, COMPARE_EXACT);
    hit_if(seen, left == 1 || left == 2, COMPARE_PAST_1);
    hit_if(seen, left > 2, COMPARE_PAST_3);
    cover_compared_bodies(seen, of);
    cover_compared_messages(seen, of);
    cover_compared_words(seen, of);
}

/* What else there is to refuse; without room for an entry the buffer is short wherever a
 * place differs. */
static void cover_compare_first(cover *seen, const cover_compared *of)
{
    int length = of->reply.refusal == BAD_LENGTH, second = layout_for(of->second_words) == NULL;

    hit(seen, length ? COMPARE_F1 : COMPARE_F2);
    hit_if(seen, second, length ? COMPARE_F1_AND_1 : COMPARE_F2_AND_1);
    hit_if(seen, of->second_malformed, length ? COMPARE_F1_AND_2 : COMPARE_F2_AND_2);
    hit_if(seen, !length && !second && !of->second_malformed &&
                     of->first_words != of->second_words,
           COMPARE_F2_AND_13);
    hit_if(seen, of->room < ENTRY_WORDS, length ? COMPARE_F1_AND_8 : COMPARE_F2_AND_8);
}

static void cover_compare_second(cover *seen, const cover_compared *of)
{
    int length = of->reply.refusal == BAD_LENGTH;

    hit(seen, length ? COMPARE_S1 : COMPARE_S2);
    hit_if(seen, !length && of->first_words != of->second_words, COMPARE_S2_AND_13);
    hit_if(seen, of->room < ENTRY_WORDS, length ? COMPARE_S1_AND_8 : COMPARE_S2_AND_8);
}

static void cover_compare_short(cover *seen, const cover_compared *of)
{
    size_t needed = 0;

    for (size_t place = 0; place < of->first_words; place++)
        needed += differs(of, place) ? ENTRY_WORDS : 0;
    hit(seen, COMPARE_8);
    hit_if(seen, of->room == 0, COMPARE_8_NONE);
    hit_if(seen, of->room + 1 == needed, COMPARE_8_BY_1);
    hit_if(seen, of->room + 2 == needed, COMPARE_8_BY_2);
    hit_if(seen, of->room + 3 == needed, COMPARE_8_BY_3);
}

void cover_compare(cover *seen, const cover_compared *of)
{
    if (of->reply.refusal == ACCEPTED) {
        cover_compared_tables(seen, of);
    } else if (of->reply.refusal == SHORT_BUFFER) {
        cover_compare_short(seen, of);
    } else if (of->reply.refusal == DIFFERING_EDITIONS) {
        hit(seen, COMPARE_13);
        hit_if(seen, of->room < ENTRY_WORDS, COMPARE_13_AND_8);
    } else if (layout_for(of->first_words) == NULL || of->first_malformed) {
        cover_compare_first(seen, of);
    } else {
        cover_compare_second(seen, of);
    }
}

void cover_compare_bytes(cover *seen, size_t first_bytes, size_t second_bytes)
{
    size_t right = layouts[seen->edition - EDITION_1].words * 4;

    hit(seen, first_bytes != right ? COMPARE_1_BYTES_FIRST : COMPARE_1_BYTES_SECOND);
    hit_if(seen, first_bytes + 1 == right || first_bytes == right + 1 ||
                     second_bytes + 1 == right || second_bytes == right + 1,
           COMPARE_1_BYTES_BY_1);
}

void cover_compare_moved(cover *seen) { hit(seen, COMPARE_13_MOVED); }

void cover_neighbours(cover *seen, const uint32_t call[8], uint32_t refusal)
{
    hit(seen, refusal == ACCEPTED ? COMPARE_ROWS + call[C_SERVICE] : COMPARE_REFUSED);
}

/* ---- The table --------------------------------------------------------- */

void cover_print(const cover *seen)
{
    char name[96];

    for (uint32_t edition = EDITION_1; edition <= EDITION_2; edition++)
        for (size_t row = 0; row < row_count(edition); row++) {
            if (!row_reachable(edition, row))
                continue;
            row_name(row, name, sizeof name);
            printf("%10llu  edition %u: %s\n",
                   (unsigned long long)seen->hits[edition - EDITION_1][row], (unsigned)edition,
                   name);
        }
}

uint64_t cover_fewest(const cover *seen, uint32_t edition, char *name, size_t size, size_t *rows)
{
    const uint64_t *hits = seen->hits[edition - EDITION_1];
    uint64_t fewest = UINT64_MAX;

    *rows = 0;
    for (size_t row = 0; row < row_count(edition); row++) {
        if (!row_reachable(edition, row) && hits[row] == 0)
            continue;
        ++*rows;
        if (!row_reachable(edition, row) || hits[row] < fewest) {
            fewest = row_reachable(edition, row) ? hits[row] : 0;
            row_name(row, name, size);
        }
    }
    return fewest;
}
