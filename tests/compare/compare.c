/* The proved kernel, through the six functions of hub_kernel.h, against the second
 * program, on tables of both editions: after every call the reply's four numbers and every
 * byte of the table, and the summary of a hub; of listings the reply and every byte of the
 * buffer; of moves the refusal and every byte of source and destination; of pairs of tables
 * that the kernel compares the reply, every word of the buffer and every byte of both.
 * `compare SIZE` runs all parts, one line each; the first difference ends the program.
 *
 * Each side keeps its own table through a run, moves among it, so a difference can't be
 * mended by the other. The kernel's table moves to another address before every call, odd
 * ones among them, and the bytes around it are watched; so do its buffer before every
 * listing, its destination before every move, and the second table and the buffer of words
 * before every pair. */
#define _POSIX_C_SOURCE 200809L

#include <inttypes.h>
#include <stdio.h>
#include <stdlib.h>
#include <string.h>
#include <time.h>
#include <unistd.h>

#include "gen.h"
#include "hub_kernel.h"
#include "numbers.h"
#include "second.h"

/* How much; all but the moves on each edition. */
typedef struct {
    const char *name;
    uint32_t runs, calls;         /* from Blank: runs, calls in each */
    uint32_t tables, table_calls; /* well-formed tables that no run need reach */
    uint32_t stops;               /* the same, and a Stop of an owner first */
    uint32_t boards;              /* the same, and a request to a Board first */
    uint32_t pools;               /* the same, and a block put or taken first */
    uint32_t queues;              /* the same, with a hub at which many wait, and who asks it */
    uint32_t chains;              /* the same, with a chain or a ring of locks, and a call on it */
    uint32_t lock_runs, lock_calls; /* from Blank, with many locks: runs, calls in each */
    uint32_t damages;             /* tables of each family of damage */
    uint32_t flips;               /* tables with a few words changed at random */
    uint32_t lengths;             /* tables of each length that isn't theirs */
    uint32_t set_ups, rooms;      /* tables listed; of these, into every room */
    uint32_t moves;               /* tables of each edition moved, there and back */
    uint32_t moved_runs;          /* runs from Blank that move */
    uint32_t length_pairs;        /* moves with each pair of lengths, each way and edition */
    uint32_t pairs, pair_rooms;   /* pairs of tables; of these, into every room */
    uint64_t least, least_moved;  /* promised: calls on each edition, moves done each way, */
    uint64_t least_pairs;         /* and pairs of both editions, */
    uint64_t least_locks;         /* and calls in runs with many locks, of both editions */
    unsigned seconds;             /* a program that loops is ended after these */
} scale;

static const scale scales[] = {
    {"quick", 40, 300, 1000, 8, 400, 400, 400, 400, 1000, 40, 400, 2, 2000, 50, 400, 5, 800, 20, 1,
     400, 3, 25000, 2000, 3000, 30000, 300},
    {"gate", 1200, 400, 40000, 8, 10000, 10000, 10000, 20000, 15000, 1050, 500, 40, 150000, 750,
     15000, 100, 48000, 200, 10, 30000, 30, 1000000, 100000, 200000, 1000000, 1400},
    {"long", 20000, 1000, 1000000, 8, 300000, 300000, 300000, 300000, 400000, 30000, 500, 800,
     4000000, 10000, 400000, 3000, 1500000, 6000, 300, 900000, 1000, 30000000, 3000000, 6000000,
     30000000, 43200},
    {"campaign", 65000, 1000, 3200000, 8, 1000000, 1000000, 1000000, 1000000, 1500000, 100000, 500,
     2600, 13000000, 32000, 1300000, 10000, 5000000, 20000, 1000, 3000000, 3000, 100000000,
     10000000, 20000000, 100000000, 43200},
};

/* Lengths in bytes around both sizes, the sizes among them, and their words. */
static const size_t lengths[] = {0,    1,    4,    600,  744,  2396, 2399, 2400,
                                 2401, 2404, 2972, 2975, 2976, 2977, 2980};
enum { LENGTHS = sizeof lengths / sizeof *lengths };

enum { LONGEST = BYTES_MOST + 4, AROUND = 64, PLACES = 16, WATCHED = 0xA5 };
enum { ROOM = AROUND + PLACES + LONGEST + AROUND };
enum { PAST = 24, ROOM_MOST = LISTING_MOST + PAST };
enum { MOST_ENTRIES = 352, MOST_ENTRIES_2 = 496 }; /* of two tables that gen_apart draws */
enum { WORDS_ROOM = ENTRY_WORDS * WORDS_MOST + PAST }; /* the longest buffer of words lent */
enum {
    MET_MOST = TASKS - 2,     /* by one Stop: neither the caller nor the target waits for it */
    READERS_MOST = TASKS - 1, /* by one update: the caller doesn't wait */
    GETTERS_MOST = TASKS - 1, /* at a Memory, while the caller puts */
    AHEAD_MOST = TASKS - 1    /* of one caller */
};

/* How a put to a Memory FAILs: its block is in, the number is past the limit, or it has a
 * high word, which edition 1 refuses. */
typedef enum { BLOCK_IN, PAST_LIMIT, HIGH_NUMBER, BLOCK_FAILS } block_fail;
enum { MODES = WT };

/* What came up on one edition. */
typedef struct {
    uint64_t calls, refusals[TABLE_FULL + 1], answers[3], waiters;
    uint64_t high; /* accepted hub requests with a high word; on edition 1 refused ones */
    uint64_t met_by_stop[MET_MOST + 1], met_by_update[READERS_MOST + 1];
    uint64_t ahead[AHEAD_MOST + 1]; /* of requests that have to wait */
    uint64_t chains[TASKS + 1], rings[TASKS + 1]; /* accepted calls by the tasks in the longest */
    uint64_t urgent[TASKS]; /* accepted calls by how many tasks' effective priorities they change */
    uint64_t passed_by;     /* unlocks after which another task is next */
    uint64_t got[BLOCKS_MAX], freed[BLOCKS_MAX], passed[BLOCKS_MAX]; /* blocks, by number */
    uint64_t none_free[MODES], block_fails[BLOCK_FAILS * MODES];     /* by mode */
    uint64_t getters[GETTERS_MOST + 1]; /* who wait while a block that is out is put */
    uint64_t listings, listing_refusals[SHORT_BUFFER + 1], longest;
    uint64_t moves[HIGH_WORD + 1]; /* from this edition to the other, by refusal */
    uint64_t pairs[DIFFERING_EDITIONS + 1]; /* compared, the first of this edition, by refusal */
    uint64_t same, one, most; /* of these: without an entry, with one, the most entries */
} tally;

typedef struct {
    const char *part;
    uint64_t seed; /* of the part's draws, for the report of a difference */
    uint64_t calls, listings, moves, pairs;
    uint64_t lock_calls; /* in runs with many locks */
    const layout *form; /* the edition at hand */
    tally seen[EDITIONS];
    uint64_t moved_in_runs[EDITIONS], waited_in_moves;
    gen_random random; /* the calls and tables */
    gen_random other;  /* places and hubs: the draws of the calls stay the generator's own */
    gen_random third;  /* what pairs need besides: the draws of all else stay as they are */
    uint8_t room[ROOM];
    uint8_t *table; /* the kernel's, somewhere in the room */
    size_t length;
    uint8_t text_room[AROUND + PLACES + ROOM_MOST + AROUND]; /* the kernel's buffer is in here */
    uint8_t to_room[ROOM];                                   /* and here its destination, */
    uint8_t first_room[ROOM], second_room[ROOM];             /* a pair's two tables, */
    uint32_t places_room[AROUND + PLACES + WORDS_ROOM + AROUND]; /* and its buffer of words */
} comparison;

typedef uint32_t (*move_words)(const uint32_t *, size_t, uint32_t *, size_t);

/* ---- Editions ---------------------------------------------------------- */

static tally *now(comparison *at) { return &at->seen[at->form - layouts]; }
static size_t words_of(const comparison *at) { return at->form->words; }
static size_t bytes_of(const comparison *at) { return 4 * words_of(at); }
static int is_edition_1(const comparison *at) { return at->form->edition == EDITION_1; }
static const layout *other_form(const comparison *at) { return &layouts[is_edition_1(at)]; }

static void draw_mood(comparison *at, gen_mood *mood)
{
    gen_draw_mood(&at->random, mood);
    mood->high = is_edition_1(at) ? 5 : 60;
}

/* ---- Reports ----------------------------------------------------------- */

static void differ(const comparison *at, const uint32_t *call, const char *what)
{
    printf("%s: DIFFER, seed %" PRIu64 ", call %" PRIu64 ": %s\n", at->part, at->seed, at->calls,
           what);
    for (int i = 0; call != NULL && i < CALL_NUMBERS; i++)
        printf("%s%" PRIu32 "%s", i == 0 ? "  the call: " : " ", call[i],
               i == CALL_NUMBERS - 1 ? "\n" : "");
    exit(1);
}

static void differ_in(const comparison *at, const uint32_t *call, const uint8_t *second)
{
    char what[96];
    size_t i = 0;

    while (at->table[i] == second[i])
        i++;
    snprintf(what, sizeof what, "byte %zu (word %zu) is %u, the second program's %u", i, i / 4,
             at->table[i], second[i]);
    differ(at, call, what);
}

/* Of a reply with fewer than four numbers the others are 0. */
static void differ_by(const comparison *at, const uint32_t *call, const char *name,
                      const uint32_t kernel[4], const uint32_t second[4])
{
    char what[160];

    snprintf(what, sizeof what,
             "%s is %" PRIu32 " %" PRIu32 " %" PRIu32 " %" PRIu32 ", the second program's %" PRIu32
             " %" PRIu32 " %" PRIu32 " %" PRIu32,
             name, kernel[0], kernel[1], kernel[2], kernel[3], second[0], second[1], second[2],
             second[3]);
    differ(at, call, what);
}

/* ---- The kernel's table ------------------------------------------------ */

static void lay(comparison *at, const uint8_t *bytes, size_t length)
{
    memset(at->room, WATCHED, sizeof at->room);
    at->table = at->room + AROUND + gen_below(&at->other, PLACES);
    at->length = length;
    memcpy(at->table, bytes, length);
}

/* To another address. */
static void lay_anew(comparison *at)
{
    uint8_t bytes[LONGEST];

    memcpy(bytes, at->table, at->length);
    lay(at, bytes, at->length);
}

static void check_around(const comparison *at, const uint32_t *call)
{
    const uint8_t *end = at->room + sizeof at->room;

    for (const uint8_t *byte = at->room; byte < at->table; byte++)
        if (*byte != WATCHED)
            differ(at, call, "a byte before the table was written");
    for (const uint8_t *byte = at->table + at->length; byte < end; byte++)
        if (*byte != WATCHED)
            differ(at, call, "a byte after the table was written");
}

static void to_bytes(const comparison *at, uint8_t *bytes, const uint32_t *words)
{
    for (size_t i = 0; i < bytes_of(at); i++)
        bytes[i] = (uint8_t)(words[i / 4] >> i % 4 * 8);
}

static void lay_words(comparison *at, const uint32_t *words)
{
    uint8_t bytes[BYTES_MOST];

    to_bytes(at, bytes, words);
    lay(at, bytes, bytes_of(at));
}

/* ---- One call ---------------------------------------------------------- */

static hub_kernel_reply kernel_call(comparison *at, const uint32_t *call)
{
    at->calls++;
    now(at)->calls++;
    return hub_kernel_call(at->table, at->length, call[C_SERVICE], call[C_CALLER], call[C_TARGET],
                           call[C_SIDE], call[C_MODE], call[C_TICKS], call[C_WORD], call[C_HIGH]);
}

/* A high word that a hub request brings: accepted on edition 2, on edition 1 a cause of 6. */
static int high_counts(const comparison *at, const uint32_t *call, uint32_t refusal)
{
    return call[C_SERVICE] == HUB_REQUEST && call[C_HIGH] != 0 &&
           refusal == (is_edition_1(at) ? BAD_ARGUMENT : ACCEPTED);
}

static void check_reply(comparison *at, const uint32_t *call, hub_kernel_reply kernel,
                        second_reply second)
{
    if (kernel.refusal != second.refusal || kernel.answer != second.answer ||
        kernel.next != second.next || kernel.ahead != second.ahead)
        differ_by(at, call, "the reply",
                  (uint32_t[]){kernel.refusal, kernel.answer, kernel.next, kernel.ahead},
                  (uint32_t[]){second.refusal, second.answer, second.next, second.ahead});
    now(at)->refusals[kernel.refusal]++;
    now(at)->high += (uint64_t)high_counts(at, call, kernel.refusal);
    if (kernel.refusal == ACCEPTED)
        now(at)->answers[kernel.answer]++;
    if (kernel.refusal == ACCEPTED && call[C_SERVICE] == HUB_REQUEST && kernel.answer == NO_ANSWER)
        now(at)->ahead[kernel.ahead]++;
}

static uint32_t list_length(const uint32_t *list)
{
    uint32_t length = 0;

    while (length < LIST_WORDS && list[length] != 0)
        length++;
    return length;
}

/* An accepted put to a Memory, which is met or FAILs. */
static void tally_put(tally *seen, const uint32_t *before, const uint32_t *call, int met)
{
    const uint32_t *hub = before + hub_place(before, call[C_TARGET]);
    uint32_t getters = list_length(before + list_place(before, call[C_TARGET]));
    block_fail fail = call[C_HIGH] != 0                ? HIGH_NUMBER
                      : call[C_WORD] >= hub[H_LIMIT] ? PAST_LIMIT
                                                     : BLOCK_IN;

    if (!met) {
        seen->block_fails[fail * MODES + call[C_MODE] - W]++;
        return;
    }
    seen->getters[getters]++;
    (getters > 0 ? seen->passed : seen->freed)[call[C_WORD]]++;
}

/* What came of an accepted request to a Memory; both sides agree on it by now. */
static void tally_blocks(comparison *at, const uint32_t *before, const uint32_t *call,
                         uint32_t answer, const uint32_t *after)
{
    if (call[C_SERVICE] != HUB_REQUEST ||
        before[hub_place(before, call[C_TARGET]) + H_KIND] != MEMORY)
        return;
    if (call[C_SIDE] == PUT)
        tally_put(now(at), before, call, answer == OK);
    else if (answer == OK)
        now(at)->got[after[field_place(after, call[C_CALLER], T_WORD)]]++;
    else
        now(at)->none_free[call[C_MODE] - W]++;
}

/* The owner of the Resource that a task waits for, plus 1, or 0. */
static uint32_t waits_for(const uint32_t *words, uint32_t task)
{
    const uint32_t *record = words + task_place(words, task), *hub;

    if (record[T_STATE] != WAITING)
        return 0;
    hub = words + hub_place(words, record[T_HUB] - 1);
    return hub[H_KIND] == RESOURCE ? hub[H_COUNT] : 0;
}

/* Who waits for whom: the tasks in the longest chain and in a ring, and what each task's
 * effective priority is. Gives 0 where nobody waits for a lock. */
typedef struct {
    uint32_t chain, ring, least[TASKS];
} locks;

static int read_locks(locks *of, const uint32_t *words)
{
    uint32_t tasks = words[TASKS_IN_USE_AT];

    memset(of, 0, sizeof *of);
    for (uint32_t task = 0; task < tasks; task++)
        of->least[task] = words[task_place(words, task) + T_PRIORITY];
    for (uint32_t task = 0; task < tasks; task++) {
        uint32_t own = words[task_place(words, task) + T_PRIORITY], length = 1;
        uint32_t at = waits_for(words, task), seen = UINT32_C(1) << task;
        for (; at != 0 && (seen >> (at - 1) & 1) == 0; at = waits_for(words, at - 1)) {
            of->least[at - 1] = own < of->least[at - 1] ? own : of->least[at - 1];
            seen |= UINT32_C(1) << (at - 1);
            length++;
        }
        of->chain = length > of->chain ? length : of->chain;
        of->ring = at == task + 1 && length > of->ring ? length : of->ring;
    }
    return of->chain > 1;
}

/* Chains and rings of the table before an accepted call, how many change by it, and who is
 * next after an unlock. */
static void tally_locks(comparison *at, const uint32_t *before, const uint32_t *call,
                        second_reply reply, const uint32_t *after)
{
    uint32_t changed = 0;
    locks old, new;
    int some = call[C_SERVICE] != BLANK && read_locks(&old, before);

    if (call[C_SERVICE] == BLANK || (!read_locks(&new, after) && !some))
        return;
    now(at)->chains[old.chain]++;
    now(at)->rings[old.ring]++;
    for (uint32_t task = 0; task < before[TASKS_IN_USE_AT]; task++)
        changed += old.least[task] != new.least[task] &&
                   after[task_place(after, task) + T_STATE] != INACTIVE;
    now(at)->urgent[changed]++;
    now(at)->passed_by += call[C_SERVICE] == HUB_REQUEST && call[C_SIDE] == PUT &&
                          reply.answer == OK && reply.next != call[C_CALLER] + 1 &&
                          before[hub_place(before, call[C_TARGET]) + H_KIND] == RESOURCE &&
                          old.least[call[C_CALLER]] != new.least[call[C_CALLER]];
}

static void check_summary(comparison *at, uint32_t hub, second_summary_reply second)
{
    hub_kernel_summary_reply kernel = hub_kernel_summary(at->table, at->length, hub);

    if (kernel.refusal != second.refusal || kernel.mask != second.mask ||
        kernel.count != second.count)
        differ_by(at, NULL, "the summary", (uint32_t[4]){kernel.refusal, kernel.mask, kernel.count},
                  (uint32_t[4]){second.refusal, second.mask, second.count});
    now(at)->waiters += kernel.count;
}

/* What the buffer holds before: drawn bytes, none that a listing has. */
static void lay_text(comparison *at)
{
    for (size_t i = 0; i < sizeof at->text_room; i++)
        at->text_room[i] = (uint8_t)(0x80 | gen_word(&at->other));
}

/* Bytes before the buffer have numbers below 0. */
static void differ_in_text(const comparison *at, size_t place, size_t room,
                           const uint8_t *expected)
{
    char what[96];
    size_t i = 0;

    while (at->text_room[i] == expected[i])
        i++;
    snprintf(what, sizeof what, "byte %td of a buffer of %zu is %u, the second program's %u",
             (ptrdiff_t)i - (ptrdiff_t)place, room, at->text_room[i], expected[i]);
    differ(at, NULL, what);
}

/* The listing of the kernel's table, which is `bytes`, into a buffer of so many
 * bytes: the reply, every byte in and around the buffer, every byte of the table. */
static void check_listing(comparison *at, const uint8_t *bytes, size_t room)
{
    uint8_t expected[sizeof at->text_room];
    size_t place = AROUND + gen_below(&at->other, PLACES);

    lay_text(at);
    memcpy(expected, at->text_room, sizeof expected);
    at->listings++;
    hub_kernel_listing_reply kernel = hub_kernel_listing(at->table, at->length,
                                                         at->text_room + place, room);
    second_listing_reply second = second_listing_bytes(bytes, at->length, expected + place, room);
    if (kernel.refusal != second.refusal || kernel.length != second.length)
        differ_by(at, NULL, "the listing's reply", (uint32_t[4]){kernel.refusal, kernel.length},
                  (uint32_t[4]){second.refusal, second.length});
    if (memcmp(at->text_room, expected, sizeof expected) != 0)
        differ_in_text(at, place, room, expected);
    if (memcmp(at->table, bytes, at->length) != 0)
        differ_in(at, NULL, bytes);
    check_around(at, NULL);
    now(at)->listings++;
    now(at)->listing_refusals[kernel.refusal]++;
    if (kernel.length > now(at)->longest)
        now(at)->longest = kernel.length;
}

/* How long a well-formed table's listing is, to draw a room near it; else any. */
static size_t needed_room(comparison *at, const uint8_t *bytes)
{
    uint8_t text[LISTING_MOST];
    second_listing_reply reply = second_listing_bytes(bytes, at->length, text, sizeof text);

    return reply.refusal == ACCEPTED ? reply.length : gen_below(&at->other, LISTING_MOST + 1);
}

static size_t draw_room(comparison *at, const uint8_t *bytes)
{
    size_t needed = needed_room(at, bytes);

    switch (gen_below(&at->other, 8)) {
    case 0:
        return gen_below(&at->other, 15);
    case 1:
        return needed > 0 ? needed - 1 : 0;
    case 2:
        return needed;
    case 3:
        return needed + 1;
    case 4:
        return ROOM_MOST;
    default:
        return gen_below(&at->other, ROOM_MOST + 1);
    }
}

/* ---- One pair ---------------------------------------------------------- */

/* Two tables as bytes, of any lengths. */
typedef struct {
    uint8_t first[LONGEST], second[LONGEST];
    size_t first_length, second_length;
} pair;

/* Words before the buffer have numbers below 0. */
static void differ_in_places(const comparison *at, size_t place, size_t room,
                             const uint32_t *expected)
{
    char what[128];
    size_t i = 0;

    while (at->places_room[i] == expected[i])
        i++;
    snprintf(what, sizeof what,
             "word %td of a buffer of %zu words is %" PRIu32 ", the second program's %" PRIu32,
             (ptrdiff_t)i - (ptrdiff_t)place, room, at->places_room[i], expected[i]);
    differ(at, NULL, what);
}

/* At another address, odd ones among them; what is around it is watched. */
static uint8_t *lay_in(comparison *at, uint8_t room[ROOM], const uint8_t *bytes, size_t length)
{
    uint8_t *place = room + AROUND + gen_below(&at->third, PLACES);

    memset(room, WATCHED, ROOM);
    memcpy(place, bytes, length);
    return place;
}

/* The bytes lent and those around them are as they were laid. */
static void check_lent(const comparison *at, const uint8_t room[ROOM], const uint8_t *place,
                       const uint8_t *bytes, size_t length)
{
    uint8_t laid[ROOM];

    memset(laid, WATCHED, sizeof laid);
    memcpy(laid + (place - room), bytes, length);
    if (memcmp(room, laid, sizeof laid) != 0)
        differ(at, NULL, "a byte in or around a table that was compared was written");
}

static void tally_pair(comparison *at, hub_kernel_compare_reply reply)
{
    at->pairs++;
    now(at)->pairs[reply.refusal]++;
    now(at)->same += reply.refusal == ACCEPTED && reply.count == 0;
    now(at)->one += reply.count == 1;
    if (reply.count > now(at)->most)
        now(at)->most = reply.count;
}

/* Both tables through the kernel and the second program, into a buffer of so many words: the
 * reply, every word in and around the buffer, which holds drawn words, and every byte in and
 * around the tables. */
static hub_kernel_compare_reply compare_pair(comparison *at, const pair *of, size_t room)
{
    static uint32_t expected[sizeof at->places_room / sizeof *at->places_room];
    size_t place = AROUND + gen_below(&at->third, PLACES);
    const uint8_t *first = lay_in(at, at->first_room, of->first, of->first_length);
    const uint8_t *second = lay_in(at, at->second_room, of->second, of->second_length);

    for (size_t i = 0; i < sizeof expected / sizeof *expected; i++)
        expected[i] = at->places_room[i] = gen_word(&at->third);
    hub_kernel_compare_reply kernel = hub_kernel_compare(first, of->first_length, second,
                                                         of->second_length,
                                                         at->places_room + place, room);
    second_compare_reply reply = second_compare_bytes(of->first, of->first_length, of->second,
                                                      of->second_length, expected + place, room);
    if (kernel.refusal != reply.refusal || kernel.count != reply.count)
        differ_by(at, NULL, "the comparison's reply", (uint32_t[4]){kernel.refusal, kernel.count},
                  (uint32_t[4]){reply.refusal, reply.count});
    if (memcmp(at->places_room, expected, sizeof expected) != 0)
        differ_in_places(at, place, room, expected);
    check_lent(at, at->first_room, first, of->first, of->first_length);
    check_lent(at, at->second_room, second, of->second, of->second_length);
    tally_pair(at, kernel);
    return kernel;
}

/* The words that a pair needs, if it isn't refused for its tables; else of any. */
static size_t needed_words(comparison *at, const pair *of)
{
    uint32_t places[ENTRY_WORDS * WORDS_MOST];
    second_compare_reply reply = second_compare_bytes(of->first, of->first_length, of->second,
                                                      of->second_length, places,
                                                      sizeof places / sizeof *places);

    return ENTRY_WORDS * (reply.refusal == ACCEPTED ? reply.count
                                                    : gen_below(&at->third, WORDS_MOST));
}

/* None, less than an entry, up to one entry too few, just enough, up to one entry more, much
 * more, or any. */
static size_t draw_words(comparison *at, const pair *of)
{
    size_t needed = needed_words(at, of), some = 1 + gen_below(&at->third, ENTRY_WORDS);

    switch (gen_below(&at->third, 8)) {
    case 0:
        return 0;
    case 1:
        return some - 1;
    case 2:
    case 3:
        return needed >= some ? needed - some : 0;
    case 4:
        return needed;
    case 5:
        return needed + some;
    case 6:
        return needed + PAST;
    default:
        return gen_below(&at->third, WORDS_ROOM + 1);
    }
}

static void words_to_bytes(uint8_t *bytes, const uint32_t *words, size_t count)
{
    for (size_t i = 0; i < 4 * count; i++)
        bytes[i] = (uint8_t)(words[i / 4] >> i % 4 * 8);
}

static pair pair_of(const uint32_t *first, size_t first_words, const uint32_t *second,
                    size_t second_words)
{
    pair of = {.first_length = 4 * first_words, .second_length = 4 * second_words};

    words_to_bytes(of.first, first, first_words);
    words_to_bytes(of.second, second, second_words);
    return of;
}

/* Two tables of the edition at hand, into a drawn room. */
static void compare_words(comparison *at, const uint32_t *first, const uint32_t *second)
{
    pair of = pair_of(first, words_of(at), second, words_of(at));

    compare_pair(at, &of, draw_words(at, &of));
}

/* Mostly a hub in use, else any number. */
static uint32_t draw_hub(comparison *at)
{
    return gen_chance(&at->other, 95) ? gen_below(&at->other, HUBS + 1) : gen_word(&at->other);
}

/* The call on both tables, and the summary of the table after it; after each 16th
 * call the listing too. */
static second_reply compare(comparison *at, uint32_t *words, const uint32_t *call)
{
    uint8_t expected[BYTES_MOST];
    uint32_t hub = draw_hub(at), before[WORDS_MOST];

    memcpy(before, words, bytes_of(at));
    lay_anew(at);
    hub_kernel_reply kernel = kernel_call(at, call);
    second_reply second = second_call(words, words_of(at), call);
    check_reply(at, call, kernel, second);
    check_summary(at, hub, second_summary(words, words_of(at), hub));
    to_bytes(at, expected, words);
    if (memcmp(at->table, expected, bytes_of(at)) != 0)
        differ_in(at, call, expected);
    check_around(at, call);
    if (second.refusal == ACCEPTED) {
        tally_blocks(at, before, call, second.answer, words);
        tally_locks(at, before, call, second, words);
    }
    if (at->calls % 16 == 0)
        check_listing(at, expected, draw_room(at, expected));
    if (at->calls % 32 == 0)
        compare_words(at, before, words);
    return second;
}

/* ---- One move ---------------------------------------------------------- */

static void differ_in_destination(const comparison *at, size_t place, const uint8_t *expected)
{
    char what[112];
    size_t i = 0;

    while (at->to_room[i] == expected[i])
        i++;
    snprintf(what, sizeof what, "byte %td of the destination is %u, the second program's %u",
             (ptrdiff_t)i - (ptrdiff_t)place, at->to_room[i], expected[i]);
    differ(at, NULL, what);
}

/* A move of the kernel's table, which is `bytes`, up or down, to a destination of so many
 * bytes: the refusal, every byte in and around the destination, every byte of the source.
 * The destination holds a drawn byte everywhere, so one that isn't written shows. Gives
 * where the kernel's destination is if the move was done, else NULL. */
static const uint8_t *compare_move(comparison *at, const uint8_t *bytes, int up, size_t to_bytes)
{
    uint8_t expected[ROOM];
    size_t place = AROUND + gen_below(&at->other, PLACES);

    lay_anew(at);
    memset(at->to_room, (int)(gen_word(&at->other) & 0xFF), sizeof at->to_room);
    memcpy(expected, at->to_room, sizeof expected);
    at->moves++;
    uint32_t kernel = (up ? hub_kernel_move_up : hub_kernel_move_down)(at->table, at->length,
                                                                       at->to_room + place,
                                                                       to_bytes);
    uint32_t second = (up ? second_move_up_bytes : second_move_down_bytes)(bytes, at->length,
                                                                           expected + place,
                                                                           to_bytes);
    if (kernel != second)
        differ_by(at, NULL, up ? "the move up" : "the move down", (uint32_t[4]){kernel},
                  (uint32_t[4]){second});
    if (memcmp(at->to_room, expected, sizeof expected) != 0)
        differ_in_destination(at, place, expected);
    if (memcmp(at->table, bytes, at->length) != 0)
        differ(at, NULL, "a move wrote to its source");
    check_around(at, NULL);
    at->seen[!up].moves[kernel]++;
    return kernel == ACCEPTED ? at->to_room + place : NULL;
}

/* The move from the edition at hand to the other; if it is done both sides go on there. */
static int go_over(comparison *at, uint32_t *words)
{
    uint8_t bytes[BYTES_MOST];
    uint32_t moved[WORDS_MOST];
    move_words second = is_edition_1(at) ? second_move_up : second_move_down;

    to_bytes(at, bytes, words);
    const uint8_t *to = compare_move(at, bytes, is_edition_1(at), 4 * other_form(at)->words);
    if (to == NULL)
        return 0;
    second(words, words_of(at), moved, other_form(at)->words);
    memcpy(words, moved, sizeof moved);
    at->form = other_form(at);
    lay(at, to, bytes_of(at));
    return 1;
}

/* There and, if that was done, back: the first table again. */
static void there_and_back(comparison *at, const uint32_t *words)
{
    const layout *form = at->form;
    uint32_t moved[WORDS_MOST];

    memcpy(moved, words, bytes_of(at));
    lay_words(at, words);
    if (go_over(at, moved) && (!go_over(at, moved) || memcmp(moved, words, bytes_of(at)) != 0))
        differ(at, NULL, "a move and the move back don't give the first table");
    at->form = form;
}

/* Both moves, whichever the table is for, to a destination of that move's size. */
static void both_moves(comparison *at, const uint8_t *bytes)
{
    compare_move(at, bytes, 1, BYTES_2);
    compare_move(at, bytes, 0, BYTES);
}

/* ---- The parts --------------------------------------------------------- */

static void begin(comparison *at, const char *part, uint64_t seed)
{
    at->part = part;
    at->seed = seed;
    gen_seed(&at->random, seed);
}

static void part_runs(comparison *at, const scale *to)
{
    uint32_t call[CALL_NUMBERS];
    gen_mood mood;

    for (uint32_t run = 0; run < to->runs; run++) {
        uint32_t words[WORDS_MOST] = {0};

        begin(at, "runs", run);
        lay_words(at, words);
        draw_mood(at, &mood);
        for (uint32_t i = 0; i < to->calls; i++) {
            if (i % 64 == 63)
                gen_turn(&at->random, &mood);
            gen_call(&at->random, &mood, words, call);
            compare(at, words, call);
        }
    }
}

static void part_lock_runs(comparison *at, const scale *to)
{
    uint32_t call[CALL_NUMBERS];
    uint64_t calls = at->calls;
    gen_mood mood;

    for (uint32_t run = 0; run < to->lock_runs; run++) {
        uint32_t words[WORDS_MOST] = {0};

        begin(at, "lock runs", run);
        lay_words(at, words);
        gen_draw_lock_mood(&at->random, &mood);
        mood.high = is_edition_1(at) ? 2 : 60;
        for (uint32_t i = 0; i < to->lock_calls; i++) {
            if (i % 64 == 63)
                gen_turn(&at->random, &mood);
            gen_call(&at->random, &mood, words, call);
            compare(at, words, call);
        }
    }
    at->lock_calls += at->calls - calls;
}

static void part_tables(comparison *at, const scale *to)
{
    uint32_t words[WORDS_MOST], call[CALL_NUMBERS];
    gen_mood mood;

    for (uint32_t i = 0; i < to->tables; i++) {
        begin(at, "tables", i);
        gen_table(&at->random, at->form->edition, words);
        lay_words(at, words);
        draw_mood(at, &mood);
        mood.tasks = mood.hubs = 0; /* nothing to add first */
        for (uint32_t j = 0; j < to->table_calls; j++) {
            gen_call(&at->random, &mood, words, call);
            compare(at, words, call);
        }
    }
}

/* How many tasks waited before and are ready after. */
static uint32_t count_met(const uint32_t *before, const uint32_t *after)
{
    uint32_t met = 0;

    for (uint32_t task = 0; task < before[TASKS_IN_USE_AT]; task++)
        met += before[task_place(before, task) + T_STATE] == WAITING &&
               after[task_place(after, task) + T_STATE] == READY;
    return met;
}

/* How many tasks wait. */
static uint32_t waiting_in(const uint32_t *words)
{
    uint32_t waiting = 0;

    for (uint32_t task = 0; task < words[TASKS_IN_USE_AT]; task++)
        waiting += words[task_place(words, task) + T_STATE] == WAITING;
    return waiting;
}

/* The call drawn with the table, and a few calls more on the table that it left. Gives
 * how many the first one met. */
static uint32_t compare_met(comparison *at, uint32_t *words, uint32_t *call)
{
    uint32_t before[WORDS_MOST], met;
    gen_mood mood;

    lay_words(at, words);
    memcpy(before, words, bytes_of(at));
    compare(at, words, call);
    met = count_met(before, words);
    draw_mood(at, &mood);
    mood.tasks = mood.hubs = 0; /* nothing to add first */
    for (int j = 0; j < 3; j++) {
        gen_call(&at->random, &mood, words, call);
        compare(at, words, call);
    }
    return met;
}

static void part_stops(comparison *at, const scale *to)
{
    uint32_t words[WORDS_MOST], call[CALL_NUMBERS];

    for (uint32_t i = 0; i < to->stops; i++) {
        begin(at, "stops", i);
        gen_stop(&at->random, at->form->edition, words, call);
        now(at)->met_by_stop[compare_met(at, words, call)]++;
    }
}

/* Updates mostly; reads and wipes, the latter at any kind of hub, meet nobody. */
static void part_boards(comparison *at, const scale *to)
{
    uint32_t words[WORDS_MOST], call[CALL_NUMBERS];

    for (uint32_t i = 0; i < to->boards; i++) {
        begin(at, "boards", i);
        gen_board(&at->random, at->form->edition, words, call);
        int updates = call[C_SIDE] == PUT;
        uint32_t met = compare_met(at, words, call);
        if (updates)
            now(at)->met_by_update[met]++;
        else if (met > 0)
            differ(at, NULL, "a read or a wipe met somebody");
    }
}

/* A put meets the first getter at most, and a get nobody. */
static void part_pools(comparison *at, const scale *to)
{
    uint32_t words[WORDS_MOST], call[CALL_NUMBERS];

    for (uint32_t i = 0; i < to->pools; i++) {
        begin(at, "pools", i);
        gen_pool(&at->random, at->form->edition, words, call);
        uint32_t most = call[C_SIDE] == PUT ? 1 : 0;
        if (compare_met(at, words, call) > most)
            differ(at, NULL, "a block met more than one getter, or a get met somebody");
    }
}

/* One after the other asks a hub at which none to 15 wait, so its list grows. */
static void part_queues(comparison *at, const scale *to)
{
    uint32_t words[WORDS_MOST], call[CALL_NUMBERS];

    for (uint32_t i = 0; i < to->queues; i++) {
        begin(at, "queues", i);
        gen_queue(&at->random, at->form->edition, words, call);
        lay_words(at, words);
        for (int j = 0; j < 4; j++) {
            compare(at, words, call);
            gen_ask(&at->random, words, call[C_TARGET], call);
        }
    }
}

static void part_chains(comparison *at, const scale *to)
{
    uint32_t words[WORDS_MOST], call[CALL_NUMBERS];

    for (uint32_t i = 0; i < to->chains; i++) {
        begin(at, "chains", i);
        gen_chain(&at->random, at->form->edition, words, call);
        compare_met(at, words, call);
    }
}

/* Tables that no run need reach, every second one with numbers of every length:
 * none, one byte too few, just enough, more; and some into every room. */
static void part_listings(comparison *at, const scale *to)
{
    uint32_t words[WORDS_MOST];
    uint8_t bytes[BYTES_MOST];

    for (uint32_t i = 0; i < to->set_ups; i++) {
        begin(at, "listings", i);
        if (i % 2 == 0)
            gen_set_up(&at->random, at->form->edition, words);
        else
            gen_table(&at->random, at->form->edition, words);
        to_bytes(at, bytes, words);
        lay(at, bytes, bytes_of(at));
        size_t needed = needed_room(at, bytes);
        check_listing(at, bytes, 0);
        check_listing(at, bytes, needed - 1);
        check_listing(at, bytes, needed);
        check_listing(at, bytes, needed + 1 + gen_below(&at->other, PAST));
        check_listing(at, bytes, draw_room(at, bytes));
        for (size_t room = 0; i < to->rooms && room <= needed + PAST; room++)
            check_listing(at, bytes, room);
    }
}

/* Without room, with room for any listing, and with a drawn room. */
static void listing_rooms(comparison *at, const uint8_t *bytes)
{
    check_listing(at, bytes, 0);
    check_listing(at, bytes, ROOM_MOST);
    check_listing(at, bytes, draw_room(at, bytes));
}

/* Every service, two numbers above them, and Blank last, since it mends the table. */
static void part_damaged(comparison *at, const scale *to)
{
    uint32_t words[WORDS_MOST], call[CALL_NUMBERS];
    uint8_t bytes[BYTES_MOST];

    for (size_t family = 0; family < gen_damages(at->form->edition); family++) {
        begin(at, gen_damage_name(family), family);
        for (uint32_t i = 0; i < to->damages; i++) {
            gen_damaged(&at->random, at->form->edition, family, words);
            lay_words(at, words);
            to_bytes(at, bytes, words);
            listing_rooms(at, bytes);
            both_moves(at, bytes);
            for (uint32_t service = HUB_REQUEST; service <= ADD_HUB + 3; service++) {
                for (int j = 0; j < CALL_NUMBERS; j++)
                    call[j] = gen_below(&at->random, 4);
                call[C_SERVICE] = service <= ADD_HUB + 1   ? service
                                  : service == ADD_HUB + 2 ? UINT32_MAX
                                                           : BLANK;
                compare(at, words, call);
            }
        }
    }
}

static void part_flips(comparison *at, const scale *to)
{
    uint32_t words[WORDS_MOST], call[CALL_NUMBERS];
    uint8_t bytes[BYTES_MOST];
    gen_mood mood;

    begin(at, "flips", 0);
    for (uint32_t i = 0; i < to->flips; i++) {
        gen_table(&at->random, at->form->edition, words);
        draw_mood(at, &mood);
        gen_call(&at->random, &mood, words, call);
        gen_flip(&at->random, words);
        lay_words(at, words);
        if (i % 4 == 0) {
            to_bytes(at, bytes, words);
            both_moves(at, bytes);
        }
        compare(at, words, call);
    }
}

/* A well-formed table cut short, or with zeros behind it, so many bytes of either. */
static void draw_bytes(comparison *at, uint8_t bytes[LONGEST], uint32_t *words)
{
    gen_table(&at->random, at->form->edition, words);
    memset(bytes, 0, LONGEST);
    to_bytes(at, bytes, words);
}

/* Every length but the table's own; the other edition's has contents that don't fit. */
static void part_lengths(comparison *at, const scale *to)
{
    uint32_t words[WORDS_MOST], call[CALL_NUMBERS];
    uint8_t bytes[LONGEST];
    gen_mood mood;

    for (size_t i = 0; i < LENGTHS; i++) {
        begin(at, "lengths", lengths[i]);
        for (uint32_t j = 0; lengths[i] != bytes_of(at) && j < to->lengths; j++) {
            uint32_t hub = draw_hub(at);

            draw_bytes(at, bytes, words);
            draw_mood(at, &mood);
            gen_call(&at->random, &mood, words, call);
            if (j % 16 == 0)
                call[C_SERVICE] = BLANK;
            lay(at, bytes, lengths[i]);
            hub_kernel_reply kernel = kernel_call(at, call);
            check_reply(at, call, kernel, second_call_bytes(bytes, lengths[i], call));
            check_summary(at, hub, second_summary_bytes(bytes, lengths[i], hub));
            if (memcmp(at->table, bytes, lengths[i]) != 0)
                differ_in(at, call, bytes);
            check_around(at, call);
            listing_rooms(at, bytes);
        }
    }
}

/* Tables of every part; of edition 2 as drawn, with one high word, and with none. */
static void part_moves(comparison *at, const scale *to)
{
    uint32_t words[WORDS_MOST], call[CALL_NUMBERS];

    for (uint32_t i = 0; i < to->moves; i++) {
        begin(at, "moves", i);
        switch (i % 7) {
        case 6:
            gen_chain(&at->random, at->form->edition, words, call);
            break;
        case 0:
            gen_stop(&at->random, at->form->edition, words, call);
            break;
        case 1:
            gen_board(&at->random, at->form->edition, words, call);
            break;
        case 2:
            gen_queue(&at->random, at->form->edition, words, call);
            break;
        case 3:
            gen_pool(&at->random, at->form->edition, words, call);
            break;
        default:
            gen_table(&at->random, at->form->edition, words);
            break;
        }
        there_and_back(at, words);
        if (is_edition_1(at))
            continue;
        gen_clear_high(words);
        there_and_back(at, words);
        if (gen_one_high(&at->random, words))
            there_and_back(at, words);
    }
}

/* From Blank on either edition, on both sides; at times without high words for a while, so
 * that it comes down again. */
static void moved_run(comparison *at, uint32_t calls)
{
    uint32_t words[WORDS_MOST] = {0}, call[CALL_NUMBERS];
    gen_mood mood;

    at->form = &layouts[gen_below(&at->random, EDITIONS)];
    lay_words(at, words);
    gen_draw_mood(&at->random, &mood);
    for (uint32_t i = 0; i < calls; i++) {
        if (i % 64 == 63)
            gen_turn(&at->random, &mood);
        if (i % 32 == 0)
            mood.high = gen_chance(&at->random, 70) ? 0 : gen_chance(&at->random, 50) ? 5 : 50;
        gen_call(&at->random, &mood, words, call);
        if (is_edition_1(at) && gen_chance(&at->random, 98))
            call[C_HIGH] = 0;
        compare(at, words, call);
        if (!gen_chance(&at->random, 8))
            continue;
        uint32_t waiting = waiting_in(words);
        const layout *from = at->form;
        if (go_over(at, words)) {
            at->moved_in_runs[from - layouts]++;
            at->waited_in_moves += waiting;
        }
    }
}

static void part_moved_runs(comparison *at, const scale *to)
{
    for (uint32_t run = 0; run < to->moved_runs; run++) {
        begin(at, "moved runs", run);
        moved_run(at, to->calls);
    }
}

/* Every pair of lengths, each way: of a table of either edition, cut or with zeros behind. */
static void part_length_pairs(comparison *at, const scale *to)
{
    uint32_t words[WORDS_MOST];
    uint8_t bytes[LONGEST];

    for (size_t i = 0; i < LENGTHS * LENGTHS; i++) {
        begin(at, "length pairs", i);
        for (uint32_t j = 0; j < 2 * EDITIONS * to->length_pairs; j++) {
            at->form = &layouts[j / 2 % EDITIONS];
            draw_bytes(at, bytes, words);
            lay(at, bytes, lengths[i / LENGTHS]);
            compare_move(at, bytes, (int)(j % 2), lengths[i % LENGTHS]);
        }
    }
}

/* Neighbours of one run are compared after every 32nd call of all parts; here a table of any
 * family and the same a few calls later, among them none; tables that have nothing to do with
 * each other; such as differ in one word, in the last alone, and wherever two can. */
static void draw_two(comparison *at, uint32_t *first, uint32_t *second)
{
    uint32_t edition = at->form->edition, call[CALL_NUMBERS], draw = gen_below(&at->random, 10);
    gen_mood mood;

    gen_table(&at->random, edition, first);
    memcpy(second, first, bytes_of(at));
    if (draw < 4) {
        draw_mood(at, &mood);
        mood.tasks = mood.hubs = gen_chance(&at->random, 20) ? TASKS : 0;
        for (uint32_t calls = gen_below(&at->random, 4); calls > 0; calls--) {
            gen_call(&at->random, &mood, second, call);
            second_call(second, words_of(at), call);
        }
    } else if (draw < 6) {
        gen_set_up(&at->random, edition, second);
    } else if (draw == 6) {
        gen_apart(&at->random, edition, first, second);
    } else if (draw == 7) {
        gen_last_word(&at->random, edition, first, second);
    } else if (draw == 8) {
        gen_one_word(&at->random, second);
    } else {
        gen_table(&at->random, edition, second);
    }
}

/* Well formed both, there and back, and each with itself; some into every room. */
static void compare_right(comparison *at, const pair *of, int every_room)
{
    pair back = *of, itself = *of;

    memcpy(back.first, of->second, sizeof back.first);
    memcpy(back.second, of->first, sizeof back.second);
    memcpy(itself.second, of->first, sizeof itself.second);
    compare_pair(at, of, draw_words(at, of));
    compare_pair(at, &back, draw_words(at, &back));
    if (compare_pair(at, &itself, 0).refusal != ACCEPTED)
        differ(at, NULL, "a table isn't compared with itself");
    size_t needed = needed_words(at, of);
    for (size_t room = 0; every_room && room <= needed + PAST; room++)
        compare_pair(at, of, room);
}

/* One of them, or both, damaged, of the other edition, or of another length. */
static void compare_spoiled(comparison *at, uint32_t *first, uint32_t *second)
{
    const layout *form = gen_chance(&at->random, 40) ? other_form(at) : at->form;
    uint32_t family = gen_below(&at->random, (uint32_t)gen_damages(EDITION_1));

    if (form != at->form)
        gen_table(&at->random, form->edition, second);
    if (gen_chance(&at->random, 30))
        gen_damaged(&at->random, at->form->edition, family, first);
    if (gen_chance(&at->random, 30))
        gen_damaged(&at->random, form->edition, family, second);
    pair of = pair_of(first, words_of(at), second, form->words);
    if (gen_chance(&at->random, 15))
        of.first_length = lengths[gen_below(&at->random, LENGTHS)];
    if (gen_chance(&at->random, 15))
        of.second_length = lengths[gen_below(&at->random, LENGTHS)];
    compare_pair(at, &of, draw_words(at, &of));
}

static void part_pairs(comparison *at, const scale *to)
{
    uint32_t first[WORDS_MOST], second[WORDS_MOST];

    for (uint32_t i = 0; i < to->pairs; i++) {
        begin(at, "pairs", i);
        draw_two(at, first, second);
        pair of = pair_of(first, words_of(at), second, words_of(at));
        compare_right(at, &of, i < to->pair_rooms);
        compare_spoiled(at, first, second);
    }
}

/* The same table through one pointer: both are only read. */
static void part_one_table(comparison *at, const scale *to)
{
    uint32_t words[WORDS_MOST], place = WATCHED;

    for (uint32_t i = 0; i < to->pairs / 10; i++) {
        begin(at, "one table", i);
        gen_table(&at->random, at->form->edition, words);
        lay_words(at, words);
        lay_anew(at);
        hub_kernel_compare_reply reply = hub_kernel_compare(at->table, at->length, at->table,
                                                            at->length, &place, 0);
        if (reply.refusal != ACCEPTED || reply.count != 0 || place != WATCHED)
            differ(at, NULL, "a table differs from itself");
        check_around(at, NULL);
        tally_pair(at, reply);
    }
}

/* Every pair of lengths, of tables of one edition or of two, cut or with zeros behind. */
static void part_pair_lengths(comparison *at, const scale *to)
{
    uint32_t words[WORDS_MOST];
    pair of;

    for (size_t i = 0; i < LENGTHS * LENGTHS; i++) {
        begin(at, "pair lengths", i);
        for (uint32_t j = 0; j < EDITIONS * EDITIONS * to->length_pairs; j++) {
            at->form = &layouts[j % EDITIONS];
            draw_bytes(at, of.first, words);
            at->form = &layouts[j / EDITIONS % EDITIONS];
            draw_bytes(at, of.second, words);
            at->form = &layouts[j % EDITIONS];
            of.first_length = lengths[i / LENGTHS];
            of.second_length = lengths[i % LENGTHS];
            compare_pair(at, &of, draw_words(at, &of));
        }
    }
}

/* ---- The whole --------------------------------------------------------- */

static double seconds(void)
{
    struct timespec now;
    clock_gettime(CLOCK_MONOTONIC, &now);
    return (double)now.tv_sec + (double)now.tv_nsec / 1e9;
}

static void part(comparison *at, const scale *to, const char *name,
                 void (*run)(comparison *, const scale *))
{
    uint64_t calls = at->calls, listings = at->listings, moves = at->moves, pairs = at->pairs;
    double since = seconds();

    run(at, to);
    printf("%-12s %9" PRIu64 " calls %8" PRIu64 " listings %8" PRIu64 " moves %8" PRIu64
           " pairs  %6.1f s  same\n",
           name, at->calls - calls, at->listings - listings, at->moves - moves,
           at->pairs - pairs, seconds() - since);
    fflush(stdout);
}

static void parts_of(comparison *at, const scale *to, uint32_t edition)
{
    printf("edition %" PRIu32 "\n", edition);
    at->form = &layouts[edition - EDITION_1];
    part(at, to, "runs", part_runs);
    part(at, to, "tables", part_tables);
    part(at, to, "stops", part_stops);
    part(at, to, "boards", part_boards);
    part(at, to, "pools", part_pools);
    part(at, to, "queues", part_queues);
    part(at, to, "chains", part_chains);
    part(at, to, "lock runs", part_lock_runs);
    part(at, to, "damaged", part_damaged);
    part(at, to, "flips", part_flips);
    part(at, to, "lengths", part_lengths);
    part(at, to, "listings", part_listings);
    part(at, to, "moves", part_moves);
    part(at, to, "pairs", part_pairs);
    part(at, to, "one table", part_one_table);
}

/* How many calls had none, one, and so on up to the most there can be; whether none,
 * one and the most came up. */
static int check_numbers(const char *calls, const uint64_t *had, int most)
{
    printf("%s 0 to %d:", calls, most);
    for (int i = 0; i <= most; i++)
        printf(" %" PRIu64, had[i]);
    printf("\n");
    return had[0] > 0 && had[1] > 0 && had[most] > 0;
}

/* How many calls had so many, from the least to the most; whether each came up. */
static int check_from(const char *calls, const uint64_t *had, int least, int most)
{
    int fine = 1;

    printf("%s %d to %d:", calls, least, most);
    for (int i = least; i <= most; i++) {
        printf(" %" PRIu64, had[i]);
        fine = fine && had[i] > 0;
    }
    printf("\n");
    return fine;
}

/* A line with these of the numbers seen, and whether none of them is 0. */
static int check_all(const char *what, const uint64_t *seen, const uint32_t *which, size_t count)
{
    int fine = 1;

    printf("%s:", what);
    for (size_t i = 0; i < count; i++) {
        printf(" %" PRIu64, seen[which[i]]);
        fine = fine && seen[which[i]] > 0;
    }
    printf("\n");
    return fine;
}

/* Every block taken, put while nobody waits, and put to a getter; none free in every mode;
 * every FAIL in every mode. */
static int check_blocks(const tally *seen, uint32_t edition)
{
    static const uint32_t all[] = {0, 1, 2, 3, 4, 5, 6, 7, 8};
    size_t fails = (edition == EDITION_1 ? HIGH_NUMBER : BLOCK_FAILS) * MODES;
    int fine = check_all("blocks 0 to 7 taken", seen->got, all, BLOCKS_MAX);

    fine = check_all("blocks 0 to 7 put, nobody waits", seen->freed, all, BLOCKS_MAX) && fine;
    fine = check_all("blocks 0 to 7 put to a getter", seen->passed, all, BLOCKS_MAX) && fine;
    fine = check_numbers("blocks put, getters waiting", seen->getters, GETTERS_MOST) && fine;
    fine = check_all("no block free, under W, NW, WT", seen->none_free, all, MODES) && fine;
    return check_all(edition == EDITION_1
                         ? "puts that FAIL, block in, past the limit, each by W, NW, WT"
                         : "puts that FAIL, block in, past the limit, high word, each by W, NW, WT",
                     seen->block_fails, all, fails) && fine;
}

/* A comparison in which an answer or a refusal never came up shows little. */
static int check_seen(const tally *seen, const scale *to, uint32_t edition)
{
    static const uint32_t all[] = {0, 1, 2, 3, 4, 5, 6, 7}, listing[] = {0, 1, 2, 8};
    static const uint32_t moves[] = {0, 1, 2, 9}, pairs[] = {0, 1, 2, 13, 8};
    int up = edition == EDITION_1;
    int fine = seen->waiters > 0 && seen->high > 0 && seen->calls >= to->least &&
               seen->moves[ACCEPTED] >= to->least_moved;

    printf("edition %" PRIu32 ": %" PRIu64 " calls, %" PRIu64
           " requests with a high word %s, %" PRIu64 " waiters in summaries\n",
           edition, seen->calls, seen->high, up ? "refused with 6" : "accepted", seen->waiters);
    fine = check_all("refusals 0 to 7", seen->refusals, all, 8) && fine;
    fine = check_all("answers nothing yet, OK, FAIL", seen->answers, all, 3) && fine;
    fine = check_numbers("Stops that met", seen->met_by_stop, MET_MOST) && fine;
    fine = check_numbers("updates of a Board that met", seen->met_by_update, READERS_MOST) && fine;
    fine = check_numbers("requests that wait, ahead of them", seen->ahead, AHEAD_MOST) && fine;
    fine = check_blocks(seen, edition) && fine;
    fine = check_from("calls on a chain of locks, tasks in it", seen->chains, 2, TASKS) && fine;
    fine = check_from("calls on a ring of locks, tasks in it", seen->rings, 2, TASKS) && fine;
    fine = check_from("calls that change effective priorities, of tasks", seen->urgent, 1,
                      TASKS - 1) && fine;
    printf("unlocks after which another is next %" PRIu64 "\n", seen->passed_by);
    fine = check_all("listings: accepted, refused with 1, 2, 8", seen->listing_refusals, listing,
                     4) && fine;
    fine = check_all(up ? "moves up: done, refused with 1, 2"
                        : "moves down: done, refused with 1, 2, 9",
                     seen->moves, moves, up ? 3 : 4) && fine;
    fine = check_all("pairs: accepted, refused with 1, 2, 13, 8", seen->pairs, pairs, 5) && fine;
    printf("the longest listing %" PRIu64 " bytes\n", seen->longest);
    printf("pairs without a difference %" PRIu64 ", with one %" PRIu64
           "; the most entries %" PRIu64 "\n",
           seen->same, seen->one, seen->most);
    return fine && seen->passed_by > 0 && seen->longest == LISTING_MOST && seen->same > 0 &&
           seen->one > 0 && seen->most == (up ? MOST_ENTRIES : MOST_ENTRIES_2);
}

static int run_all(comparison *at, const scale *to)
{
    int fine = 1;

    alarm(to->seconds);
    gen_seed(&at->other, 1);
    gen_seed(&at->third, 2);
    parts_of(at, to, EDITION_1);
    parts_of(at, to, EDITION_2);
    printf("both editions\n");
    part(at, to, "moved runs", part_moved_runs);
    part(at, to, "length pairs", part_length_pairs);
    part(at, to, "pair lengths", part_pair_lengths);
    for (uint32_t edition = EDITION_1; edition <= EDITION_2; edition++)
        fine = check_seen(&at->seen[edition - EDITION_1], to, edition) && fine;
    printf("moves done in runs: %" PRIu64 " up, %" PRIu64 " down, %" PRIu64
           " requests waiting in them\n",
           at->moved_in_runs[0], at->moved_in_runs[1], at->waited_in_moves);
    printf("calls in runs with many locks: %" PRIu64 "\n", at->lock_calls);
    return fine && at->moved_in_runs[0] > 0 && at->moved_in_runs[1] > 0 &&
           at->waited_in_moves > 0 && at->pairs >= to->least_pairs &&
           at->lock_calls >= to->least_locks;
}

int main(int count, char **words)
{
    static comparison at;

    for (size_t i = 0; i < sizeof scales / sizeof *scales && count == 2; i++) {
        if (strcmp(words[1], scales[i].name) != 0)
            continue;
        int fine = run_all(&at, &scales[i]);
        printf("compare: %" PRIu64 " calls, every byte of every table the same\n", at.calls);
        printf("compare: %" PRIu64 " listings, every byte of every buffer the same\n", at.listings);
        printf("compare: %" PRIu64 " moves, every byte of every source and destination the same\n",
               at.moves);
        printf("compare: %" PRIu64
               " pairs, every word of every buffer and every byte of both tables the same\n",
               at.pairs);
        if (!fine) {
            printf("compare: FAILED, too little was seen\n");
            return 1;
        }
        return 0;
    }
    fprintf(stderr, "usage: compare quick|gate|long|campaign\n");
    return 2;
}
