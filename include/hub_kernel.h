/* The hub kernel for C and C++ hosts: six functions over a table of 2,976 bytes, or of
 * 2,400 (edition 1, whose messages have 32 bits instead of 64).
 *
 *     uint8_t table[HUB_KERNEL_TABLE_BYTES_2];
 *     hub_kernel_call(table, sizeof table, HUB_KERNEL_BLANK, 0, 0, 0, 0, 0, 0, 0);
 *
 * Link with libpanel.a (`tools/archive panel` writes target/staticlib/libpanel.a, for
 * x86-64 Linux). It exports the six functions below and uses nothing but the C
 * library's memcpy, memmove and memset.
 *
 * THE TABLE is words of 32 bits, each as four bytes, the least first, whatever the
 * machine. The table may stand at any address; no alignment is asked for. There are two
 * editions, and the length alone says which one is meant: 600 words or 2,400 bytes are
 * edition 1, 744 words or 2,976 bytes edition 2.
 *
 *                      edition 1                    edition 2
 *                      words       bytes            words       bytes
 *   contents           0 to 7      0 to 31          0 to 7      0 to 31
 *   16 task records    8 to 135    32 to 543        8 to 151    32 to 607
 *   16 hub records     136 to 199  544 to 799       152 to 215  608 to 863
 *   ready list         200 to 215  800 to 863       216 to 231  864 to 927
 *   16 waiting lists   216 to 471  864 to 1887      232 to 487  928 to 1951
 *   16 stores          472 to 599  1888 to 2399     488 to 743  1952 to 2975
 *
 * The contents are the edition, tasks T, hubs H, then the word at which each body starts:
 * 8, 136, 200, 216, 472 in edition 1, and 8, 152, 216, 232, 488 in edition 2. A hub record
 * has 4 words and a list 16. A store, one per hub as the waiting lists are, holds up to 8
 * messages, or the marks of up to 8 blocks, each where a message would stand.
 *
 * A MESSAGE is what a put brings and a get receives. In edition 2 it is a low and a high
 * word, 64 bits, the high one behind the low one wherever a message stands: so a task
 * record has 9 words and a store 16. In edition 1 it is the low word alone: records of 8
 * words and stores of 8. All else is the same in both. Where it says below that a word is
 * put, received or held, such a message is meant.
 *
 * Tasks are numbered 0 to T - 1 and hubs 0 to H - 1, at most 16 of each, in the order
 * in which they were added. A list holds task number plus 1 per entry. Everything
 * unused is 0. Any bytes may be handed in: a table that isn't well formed is refusal 2, and
 * so is one whose contents name another edition than its length.
 * A table whose Resource is owned by an inactive task isn't well formed either (the kernel
 * before M-101 could leave one behind, by a Stop of the owner): no call but Blank mends it.
 * Nor is one whose ready list or waiting lists aren't ordered by effective priority: see
 * there.
 *
 * EFFECTIVE PRIORITY. A task's own priority is the number it was added with, 0 to 255, 0 the
 * most urgent; no call changes it. Its effective priority is the smallest own priority among
 * itself and all tasks that wait, directly or through others, for a Resource that it owns: a
 * low task that holds a lock for which an urgent one waits is as urgent as that one until it
 * gives the lock back. It counts whatever the owner does meanwhile, be it ready, asleep or
 * waiting itself, suspended or not, and whether the waiter is suspended or has ticks left. In
 * a ring of locks all are as urgent as the most urgent of them. It stands nowhere in the
 * table: priority in a task's record is its own.
 *
 * The ready list and every waiting list are ordered by effective priority, rising numbers,
 * equals as they came. In a call each task joins a list by its effective priority before the
 * call, behind its equals, and a task that the call adds by its own. At the end of the call
 * all tasks whose effective priority it changed are taken out of their lists, then put back,
 * in task number order, each behind its equals. So a request that waits may move others
 * forward, in the ready list and in waiting lists of hubs that it has nothing to do with; an
 * unlock, a Stop and a Tick that ends a wait may move them back. A met or failed caller keeps
 * its place in the ready list, but for one case: who gives back a lock, and with it what it
 * had inherited, may be behind others then, and `next` another task.
 *
 * After every accepted call the task that `next` names has the least effective priority of
 * all ready tasks that aren't suspended; and a ready task that isn't suspended and owns a lock
 * for which a more urgent one waits stands before all of these that are less urgent than that
 * waiter.
 *
 * The kernel before M-108 ordered lists by own priority. A table that it left is refusal 2
 * where the effective priorities say another order, which can only be while a task waits for
 * a Resource whose owner is less urgent; no call but Blank mends it. The other way round such
 * a kernel refuses tables of this one.
 *
 * OWNERSHIP. The host owns the table and lends it for one call. The kernel keeps
 * nothing between calls: no globals, no allocation, no system call. Two tables are two
 * kernels; calls on different tables may run at the same time in different threads.
 *
 * A CALL gives back refusal, answer, next and ahead, and the bytes afterwards are the
 * words after the call, all four bytes of each. A refused call has answer 0, next 0 and
 * ahead 0, and writes no byte. `next` is the running task plus 1, or 0 if no task can run;
 * the running task is the first in the ready list that isn't suspended, read when the lists
 * are in order again.
 *
 * `ahead` tells a caller that has to wait at a hub how many requests stand before it in
 * that hub's waiting list, as the list is after the call: those of its own or a more
 * urgent effective priority that were there already, suspended or not, with ticks or without
 * limit.
 * It is 0 where nobody does, so a waiting caller with ahead 0 is the first of the list,
 * and 0 in every other case: a call that is refused, a request that is met or failed, a
 * Sleep, and every other service. At most 15, and 14 at a Resource, whose owner doesn't
 * wait. It is said once, by the call that joined; a later request of a more urgent task
 * goes in front, and so does one that inherits later.
 *
 *   no. service        caller  target    side           mode  ticks       word     high
 *   0   Blank
 *   1   Hub request    task    hub       1 put, 2 get   1..3  under WT    for a put: low, high
 *                                        3 wipe: Board
 *   2   Start          task    task
 *   3   Stop           task    task
 *   4   Suspend        task    task
 *   5   Resume         task    task
 *   6   Yield          task
 *   7   Sleep          task                                   1..1000000
 *   8   Tick
 *   9   Add task               priority  1 starts it
 *   10  Add hub                kind                           limit       start
 *
 * A number that a service doesn't name is ignored; so `high` is read by hub requests only,
 * and on a table of edition 1 every hub request has to have 0 there, whatever its hub and
 * side. Blank makes the edition that fits the length, whatever stood there. The caller of
 * services 1 to 7 must be the running task, the one that `next` of the call before named.
 *
 * Stop takes the task from any list and makes it inactive; then each Resource that it
 * owned passes, in hub number order, to that hub's first waiter, who is met and owns it
 * (answer 1 in its record, as after an unlock), or becomes free. So one Stop may wake up
 * to 14 tasks; its own answer tells of the Stop alone.
 *
 * A Board holds one word for all to read. Side 1 updates it and meets every reader that
 * waits, in list order, each with that word; side 2 reads the word and leaves it there,
 * and is "not now" while the Board is unwritten; side 3 wipes it, and whoever waits goes
 * on waiting. Update and wipe never wait and always answer 1, in every mode. A Board that
 * was written has count 1, also where the word is 0, and the word first in its store; one
 * that wasn't, or was wiped, has count and store 0. Side 3 at a hub of any other kind is
 * refusal 6. One update may wake up to 15 tasks.
 *
 * A Memory keeps up to 8 blocks, numbered from 0; the blocks themselves are the host's. Side
 * 2 takes the lowest block that is free, and its number is the word received; while none is
 * free it is "not now", and nothing else holds a get back. Side 1 gives a block back, its
 * number the word put: in edition 2 the whole message, so with a high word it is no block's.
 * A number that isn't out is FAIL in every mode, be it of a block that is free or past the
 * last one; so a put never waits. Where tasks wait, the block given back goes to the first,
 * who is met with its number, and stays out; else it is free and may be taken again. Any task
 * may give back any block that is out: the kernel doesn't keep who took it, and a task that is
 * stopped leaves its blocks out. Count is how many blocks are free; in the store the place of
 * message i has 1 while block i is out (in edition 2 its low word), and all else is 0. A
 * Memory starts with every block free, so its Add hub has the limit as start too.
 *
 *   answer 0  nothing yet: the caller waits or sleeps (and always 0 for 0, 8, 9 and 10)
 *   answer 1  OK: the request was met, the service done
 *   answer 2  FAIL: not now under NW, a Resource that refuses, a block that isn't out, or a
 *             condition that doesn't hold
 *
 * A STEP THAT CAME BACK IS NOT A STEP THAT WAS MET. A caller that waits gets its answer
 * later, in the answer word of its own record, when another call meets it (1) or when a
 * Tick ends its wait (3, TO). No call returns 3. So a host that resumes a task after
 * answer 0 reads the task's answer word, in edition 1 and in edition 2 at
 *     HUB_KERNEL_TASKS_AT + HUB_KERNEL_TASK_BYTES * task + HUB_KERNEL_TASK_ANSWER
 *     HUB_KERNEL_TASKS_AT + HUB_KERNEL_TASK_BYTES_2 * task + HUB_KERNEL_TASK_ANSWER_2
 * and its state word in the same record: state 3 is still waiting, state 2 with answer 1
 * is met, 2 failed, 3 timed out. The word received stands at HUB_KERNEL_TASK_WORD, its high
 * word in edition 2 at HUB_KERNEL_TASK_HIGH_2.
 *
 * THE MOVES. hub_kernel_move_up writes the table at `from`, of edition 1, to `to` as one of
 * edition 2, all high words 0; hub_kernel_move_down writes a table of edition 2 as one of
 * edition 1, which can be done exactly if all its high words are 0. Tasks, hubs, lists,
 * ticks left, answers and messages are the same in the new table, so requests that wait go
 * on waiting there, with as many ahead of them, and are met or time out by the same calls;
 * `next` stays what it was. Each way followed by the other gives the first table again,
 * byte for byte. A move writes every byte of `to`, whatever it held, and no byte of `from`;
 * a refused move writes nothing. The two must not overlap. Which of the two tables is the
 * panel's from then on is the host's to keep in mind: the kernel doesn't mark the old one.
 *
 * THE LISTING is the set-up of a table as text: lines that the drill runner reads, the
 * Blank line, one Add task line per task, one Add hub line per hub, all in number order:
 *
 *     0 0 0 0 0 0 0 0
 *     9 0 P 0 0 0 0 0     P the task's priority; side 0, so no task is started
 *     10 0 K 0 0 L S 0    K the hub's kind, L its limit, S its start, whatever its count
 *
 * each ended by a newline, without a zero byte behind the last. Run through the drill
 * runner, whose table is of edition 2, every line is accepted, and they build the table (of
 * an edition 1 table: its move up) with every task inactive, every count at its start, and
 * all lists and stores empty. Two well-formed tables, of one edition or of both, have the
 * same listing exactly if they have the same priorities, kinds, limits and starts in the
 * same order. The host lends a buffer of `room` bytes, which must not overlap the
 * table and may stand at any address. The listing is written to its start, and the bytes
 * after it keep what they held; room for HUB_KERNEL_LISTING_MOST bytes always suffices.
 * A refused listing writes no byte and has length 0. No byte of the table is written.
 *
 * THE COMPARISON tells at which words two tables of one edition differ: what a call changed,
 * if one is a copy from before it; or what has to be sent to bring an old copy up to date.
 * hub_kernel_compare writes an entry for each such word, in rising order, to the start of a
 * buffer that the host lends, and gives back how many entries there are. An entry is three
 * words of the buffer:
 *
 *     places[3 * i]        the place: the number of the word in the table, from 0; its four
 *                          bytes start at 4 * place
 *     places[3 * i + 1]    the old word, which stands there in the first table
 *     places[3 * i + 2]    the new word, which stands there in the second
 *
 * Put the new words into the first table, and it is the second, byte for byte; no entry is
 * idle, so a table compared with itself gives 0. Compared the other way round, the entries
 * are the same with old and new exchanged. The buffer is of uint32_t, aligned as such, its
 * words in the machine's own order; `words` counts these words, not bytes and not entries.
 * HUB_KERNEL_COMPARE_WORDS words always suffice for edition 1, HUB_KERNEL_COMPARE_WORDS_2
 * for both:
 *
 *     uint32_t places[HUB_KERNEL_COMPARE_WORDS_2];
 *     hub_kernel_compare_reply reply = hub_kernel_compare(before, sizeof before, after,
 *         sizeof after, places, sizeof places / sizeof *places);
 *
 * Words behind the last entry keep what they held. A refused comparison writes nothing and
 * has count 0, so whether 0 means "the same" is for `refusal` to say. No byte of a table is
 * written, so the two may be one and the same; the buffer must not overlap either. Tables of
 * differing editions can't be compared, not even one with its move.
 *
 * REFUSALS, tested in this order:
 *
 *   1  the length is neither 2,400 nor 2,976 bytes. The moves: the two lengths aren't 2,400
 *      and 2,976 (up), 2,976 and 2,400 (down)
 *   2  the table (of a move: the source) isn't well formed (never for Blank): also where a
 *      list isn't ordered by effective priority
 *   3  service above 10
 *   4  services 1 to 7: caller isn't the running task
 *   5  service 1 and the summary: hub not in use; 2 to 5: task not in use
 *   6  service 1: side not 1 or 2 (nor 3 where the hub is a Board), mode not 1 to 3,
 *      ticks not 0 under W or NW, ticks outside 1 to 1,000,000 under WT, high above 0 on
 *      edition 1. Service 7: ticks outside that range. Service 9: priority above 255 or
 *      side above 1. Service 10: kind not 1 to 7, limit or start outside the table below
 *   7  service 9 or 10 with 16 already
 *   8  the listing: the buffer is shorter than it. The comparison: than 3 words an entry
 *   9  the move down: some high word of the source isn't 0
 *   13 the comparison: the tables are of differing editions
 *
 * The listing, the moves and the comparison have no service and no hub: of these the listing
 * tests 1, 2 and 8, the move up 1 and 2, the move down 1, 2 and 9. The comparison tests 1 and
 * 2 for the first table, then 1 and 2 for the second, then 13, then 8.
 *
 *   kind         count                       limit          start
 *   1 Event      0 or 1                      1              0
 *   2 Semaphore  0 to limit                  1 to 65,535    0 to limit
 *   3 Port       0                           0              0
 *   4 FIFO       words held, 0 to limit      1 to 8         0
 *   5 Resource   0 free, else owner plus 1   1              0
 *   6 Board      0 unwritten, 1 written      1              0
 *   7 Memory     blocks free, 0 to limit     1 to 8         the limit
 *
 * PROVED, for every length and every content of the tables, every eight numbers, every
 * buffer and every destination: the call returns, reads nothing but the table (the
 * comparison: nothing but the two), writes nothing but the table (the listing and the
 * comparison: nothing but the buffer; a move: nothing but the destination), and its reply and
 * every byte afterwards are those of the rules (crate panel, `hub_kernel_call`,
 * `hub_kernel_summary`, `hub_kernel_listing`, `hub_kernel_move_up`, `hub_kernel_move_down`
 * and `hub_kernel_compare`, whose contracts have no condition). The tables after any run of
 * calls and moves from a Blank stay well formed, so refusal 2 never comes there.
 *
 * ASSUMED: the prover and the compiler of Rattle, with LLVM behind it; and of the host,
 * that `table` isn't NULL (not even for 0 bytes), points to `bytes` bytes that it may
 * read (and for hub_kernel_call write), and that nothing else reads or writes them until
 * the call has returned; the same of `text` and its `room` bytes, which may be written and
 * share no byte with the table, of a move's `from` and `to`, of which `to` may be written and
 * shares no byte with `from`, and of a comparison's two tables and its `places`, `words` words
 * that may be written, are aligned, and share no byte with a table (not NULL either, not even
 * for 0 words). Up to 7 kB of stack are used, by a move or a comparison up to 10 kB (most where
 * sixteen tasks wait for each other: who waits for whom is followed task by task).
 */
#ifndef HUB_KERNEL_H
#define HUB_KERNEL_H

#include <stddef.h>
#include <stdint.h>

#ifdef __cplusplus
extern "C" {
#endif

/* Sizes, and places in bytes from the start of the table: those of both editions, */
enum {
    HUB_KERNEL_TASKS = 16,
    HUB_KERNEL_HUBS = 16,
    HUB_KERNEL_TASKS_AT = 32,
    HUB_KERNEL_HUB_BYTES = 16,
    HUB_KERNEL_LIST_BYTES = 64
};

/* those of edition 1, */
enum {
    HUB_KERNEL_TABLE_WORDS = 600,
    HUB_KERNEL_TABLE_BYTES = 2400,
    HUB_KERNEL_TASK_BYTES = 32,
    HUB_KERNEL_HUBS_AT = 544,
    HUB_KERNEL_READY_AT = 800,
    HUB_KERNEL_WAITING_AT = 864,
    HUB_KERNEL_STORES_AT = 1888,
    HUB_KERNEL_STORE_BYTES = 32
};

/* and those of edition 2. */
enum {
    HUB_KERNEL_TABLE_WORDS_2 = 744,
    HUB_KERNEL_TABLE_BYTES_2 = 2976,
    HUB_KERNEL_TASK_BYTES_2 = 36,
    HUB_KERNEL_HUBS_AT_2 = 608,
    HUB_KERNEL_READY_AT_2 = 864,
    HUB_KERNEL_WAITING_AT_2 = 928,
    HUB_KERNEL_STORES_AT_2 = 1952,
    HUB_KERNEL_STORE_BYTES_2 = 64
};

/* Bytes of the longest listing: 16 tasks and 16 Semaphores, all numbers of full length. */
enum { HUB_KERNEL_LISTING_MOST = 704 };

/* Words of a buffer in which every comparison of two tables of edition 1, of edition 2, has
 * room: three for each word of a table. */
enum { HUB_KERNEL_COMPARE_WORDS = 1800, HUB_KERNEL_COMPARE_WORDS_2 = 2232 };

/* A task record's words, in bytes from its start. Edition 2 has the high word behind the
 * low one, and so its answer one place further. */
enum {
    HUB_KERNEL_TASK_STATE = 0,
    HUB_KERNEL_TASK_SUSPENDED = 4,
    HUB_KERNEL_TASK_PRIORITY = 8,
    HUB_KERNEL_TASK_HUB = 12,
    HUB_KERNEL_TASK_TICKS = 16,
    HUB_KERNEL_TASK_SIDE = 20,
    HUB_KERNEL_TASK_WORD = 24,
    HUB_KERNEL_TASK_ANSWER = 28,
    HUB_KERNEL_TASK_HIGH_2 = 28,
    HUB_KERNEL_TASK_ANSWER_2 = 32
};

/* A hub record's words, in bytes from its start. */
enum {
    HUB_KERNEL_HUB_KIND = 0,
    HUB_KERNEL_HUB_COUNT = 4,
    HUB_KERNEL_HUB_LIMIT = 8,
    HUB_KERNEL_HUB_START = 12
};

/* Services. */
enum {
    HUB_KERNEL_BLANK = 0,
    HUB_KERNEL_HUB_REQUEST = 1,
    HUB_KERNEL_START = 2,
    HUB_KERNEL_STOP = 3,
    HUB_KERNEL_SUSPEND = 4,
    HUB_KERNEL_RESUME = 5,
    HUB_KERNEL_YIELD = 6,
    HUB_KERNEL_SLEEP = 7,
    HUB_KERNEL_TICK = 8,
    HUB_KERNEL_ADD_TASK = 9,
    HUB_KERNEL_ADD_HUB = 10
};

/* States of a task. */
enum {
    HUB_KERNEL_INACTIVE = 1,
    HUB_KERNEL_READY = 2,
    HUB_KERNEL_WAITING = 3,
    HUB_KERNEL_SLEEPING = 4
};

/* Sides of a hub request; at a Board they update, read and wipe, and no other kind takes
 * WIPE; at a Memory they give a block back and take one. A task that waits at a hub has side 1
 * or 2 in its record, any other task 0. */
enum { HUB_KERNEL_PUT = 1, HUB_KERNEL_GET = 2, HUB_KERNEL_WIPE = 3 };

/* Modes of a hub request: wait, don't wait, wait for some ticks. */
enum { HUB_KERNEL_W = 1, HUB_KERNEL_NW = 2, HUB_KERNEL_WT = 3 };

/* Kinds of hub. */
enum {
    HUB_KERNEL_EVENT = 1,
    HUB_KERNEL_SEMAPHORE = 2,
    HUB_KERNEL_PORT = 3,
    HUB_KERNEL_FIFO = 4,
    HUB_KERNEL_RESOURCE = 5,
    HUB_KERNEL_BOARD = 6,
    HUB_KERNEL_MEMORY = 7
};

/* Answers. TO stands in a task's record only: no call returns it. */
enum {
    HUB_KERNEL_NOTHING_YET = 0,
    HUB_KERNEL_OK = 1,
    HUB_KERNEL_FAIL = 2,
    HUB_KERNEL_TO = 3
};

/* Refusals. */
enum {
    HUB_KERNEL_ACCEPTED = 0,
    HUB_KERNEL_BAD_LENGTH = 1,
    HUB_KERNEL_NOT_WELL_FORMED = 2,
    HUB_KERNEL_NO_SUCH_SERVICE = 3,
    HUB_KERNEL_NOT_RUNNING = 4,
    HUB_KERNEL_NOT_IN_USE = 5,
    HUB_KERNEL_BAD_ARGUMENT = 6,
    HUB_KERNEL_TABLE_FULL = 7,
    HUB_KERNEL_SHORT_BUFFER = 8,
    HUB_KERNEL_HIGH_WORD = 9,
    HUB_KERNEL_OTHER_EDITION = 13
};

/* Largest numbers. */
enum {
    HUB_KERNEL_PRIORITY_MAX = 255,
    HUB_KERNEL_TICKS_MAX = 1000000,
    HUB_KERNEL_SEMAPHORE_MAX = 65535,
    HUB_KERNEL_FIFO_MAX = 8
};

typedef struct hub_kernel_reply {
    uint32_t refusal; /* 0 accepted, else 1 to 7 */
    uint32_t answer;  /* 0 nothing yet, 1 OK, 2 FAIL */
    uint32_t next;    /* the running task plus 1, or 0 */
    uint32_t ahead;   /* the caller has to wait at a hub: how many stand before it; else 0 */
} hub_kernel_reply;

/* One call on the table of `bytes` bytes. */
hub_kernel_reply hub_kernel_call(uint8_t *table, size_t bytes, uint32_t service, uint32_t caller,
                                 uint32_t target, uint32_t side, uint32_t mode, uint32_t ticks,
                                 uint32_t word, uint32_t high);

typedef struct hub_kernel_summary_reply {
    uint32_t refusal; /* 0 accepted, else 1, 2 or 5; then mask and count are 0 */
    uint32_t mask;    /* bit i set: task i waits at the hub, suspended or not */
    uint32_t count;   /* the number of set bits */
} hub_kernel_summary_reply;

/* Who waits at a hub. Writes nothing. */
hub_kernel_summary_reply hub_kernel_summary(const uint8_t *table, size_t bytes, uint32_t hub);

typedef struct hub_kernel_listing_reply {
    uint32_t refusal; /* 0 accepted, else 1, 2 or 8; then nothing is written and length is 0 */
    uint32_t length;  /* bytes written to the start of `text`, at most HUB_KERNEL_LISTING_MOST */
} hub_kernel_listing_reply;

/* The set-up of the table as drill lines, into the `room` bytes at `text`; the two must
 * not overlap. Writes nothing else. */
hub_kernel_listing_reply hub_kernel_listing(const uint8_t *table, size_t bytes, uint8_t *text,
                                            size_t room);

/* The table at `from`, of edition 1, to `to` as one of edition 2, high words 0. Gives the
 * refusal, 1 or 2, and then nothing is written, or 0 if done. The two must not overlap. */
uint32_t hub_kernel_move_up(const uint8_t *from, size_t from_bytes, uint8_t *to, size_t to_bytes);

/* The table at `from`, of edition 2, to `to` as one of edition 1. Gives the refusal, 1, 2 or
 * 9, and then nothing is written, or 0 if done. The two must not overlap. */
uint32_t hub_kernel_move_down(const uint8_t *from, size_t from_bytes, uint8_t *to,
                              size_t to_bytes);

typedef struct hub_kernel_compare_reply {
    uint32_t refusal; /* 0 accepted, else 1, 2, 13 or 8; then nothing is written and count is 0 */
    uint32_t count;   /* entries written to the start of `places`, three words each */
} hub_kernel_compare_reply;

/* Where the second table differs from the first: place, old word and new word of each such
 * word, into the `words` words at `places`, which must not overlap a table. Writes nothing
 * else. */
hub_kernel_compare_reply hub_kernel_compare(const uint8_t *first, size_t first_bytes,
                                            const uint8_t *second, size_t second_bytes,
                                            uint32_t *places, size_t words);

#ifdef __cplusplus
}
#endif

#endif
