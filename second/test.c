/* The second program's tests: constructed cases, runs from Blank with demand 3
 * checked, built tables, Stops of owners, requests to Boards, to Memories and to hubs at
 * which many wait, chains and rings of locks, runs with many of them, damaged tables, listings, pairs of tables compared, all on both editions;
 * moves from one to the other, in the middle of runs too; coverage.
 * `test SIZE` runs them all, one line each; the first failure ends the program.
 *
 * Each call is checked against expect.c word for word, and besides for what
 * must hold whatever expect.c says: an accepted call leaves a well-formed
 * table, a refused one leaves every word, no answer is 3, ahead is where the
 * list has the caller (M-104), and the most urgent runs, who is before every task less urgent
 * than one that waits for its lock (M-108, ledger_urgency).
 *
 * A listing is checked against expect.c byte for byte, the buffer's other bytes
 * with it, and for what it is for: the drill runner builds the set-up from it.
 *
 * A comparison is checked against expect.c word for word, the buffer's other words with it,
 * and for what it is for: its new words put into the first table give the second. */
#define _POSIX_C_SOURCE 200809L

#include <inttypes.h>
#include <stdio.h>
#include <stdlib.h>
#include <string.h>
#include <time.h>
#include <unistd.h>

#include "cover.h"
#include "expect.h"
#include "gen.h"
#include "ledger.h"
#include "numbers.h"
#include "runner.h"
#include "second.h"

typedef struct {
    const char *name;
    uint32_t runs, calls;         /* family a: runs, calls in each */
    uint32_t tables, table_calls; /* family b */
    uint32_t stops, boards;       /* families f and g */
    uint32_t pools, queues;       /* families k and h */
    uint32_t chains, lock_runs;   /* family l: tables; runs, of as many calls as family a's */
    uint32_t damages, flips;      /* family c: tables per family; tables with flips */
    uint32_t set_ups, rooms;      /* family e: tables listed; tables listed into every room */
    uint32_t moves, moved_runs;   /* family i: tables moved, so many done each way at least;
                                   * runs with moves in the middle */
    uint32_t pairs, pair_rooms;   /* family j: pairs compared; of these, into every room */
    uint32_t least;               /* calls on each edition */
    unsigned seconds;             /* a program that loops is ended after these */
    int coverage;                 /* rows must have their hits */
} scale;

static const scale scales[] = {
    {"quick", 60, 400, 1000, 8, 400, 400, 400, 400, 1500, 30, 3, 3000, 200, 3, 1500, 40, 500, 3, 40000, 60,
     0},
    {"gate", 1500, 500, 60000, 8, 20000, 20000, 20000, 25000, 40000, 400, 110, 200000, 20000, 80, 100000, 600,
     30000, 60, 1000000, 600, 1},
    {"long", 20000, 1000, 1000000, 8, 400000, 400000, 400000, 400000, 800000, 8000, 1000, 5000000, 400000, 2000,
     2000000, 10000, 600000, 1500, 30000000, 14400, 1},
};

/* Where the tests are, for the report of a failure, and what they counted. */
typedef struct {
    const char *part;
    uint64_t seed; /* in a constructed case: the step */
    const layout *form; /* of the tables that are being tested */
    uint64_t calls, requests;
    uint64_t moves[EDITIONS], moved[EDITIONS]; /* from that edition: called, done */
    uint64_t moves_digest;
    uint64_t digest; /* of all calls, replies and tables: the same on every machine */
    uint64_t listings, listings_digest; /* of all listings, their replies and texts */
    uint64_t compares, compares_digest; /* of all comparisons, their replies and entries */
    gen_random random;
    gen_random other; /* the listings' buffers: the draws of calls and tables stay as they are */
    gen_random third; /* the comparisons' buffers, and the tables that they are given besides */
    cover seen;
    ledger book;
} bench;

static void fail(const bench *at, const uint32_t *call, const char *what)
{
    printf("%s: FAILED, seed or step %" PRIu64 ", call %" PRIu64 ": %s\n", at->part, at->seed,
           at->calls, what);
    for (int i = 0; call != NULL && i < CALL_NUMBERS; i++)
        printf("%s%" PRIu32 "%s", i == 0 ? "  the call: " : " ", call[i],
               i == CALL_NUMBERS - 1 ? "\n" : "");
    exit(1);
}

static void begin(bench *at, const char *part, uint64_t seed)
{
    at->part = part;
    at->seed = seed;
    gen_seed(&at->random, seed);
    gen_seed(&at->other, ~seed);
    gen_seed(&at->third, seed + (UINT64_C(1) << 32));
}

/* What follows is of tables of this edition. */
static void set_edition(bench *at, uint32_t edition)
{
    at->form = &layouts[edition - EDITION_1];
    at->seen.edition = edition;
}

static size_t words_of(const bench *at) { return at->form->words; }
static size_t bytes_of(const bench *at) { return 4 * at->form->words; }

static int same_words(const bench *at, const uint32_t *a, const uint32_t *b)
{
    return memcmp(a, b, bytes_of(at)) == 0;
}

static int well_formed(const bench *at, const uint32_t *table)
{
    return expect_well_formed(table, words_of(at));
}

static int same_reply(second_reply a, second_reply b)
{
    return a.refusal == b.refusal && a.answer == b.answer && a.next == b.next &&
           a.ahead == b.ahead;
}

static void to_bytes(uint8_t *bytes, const uint32_t *table, size_t words)
{
    for (size_t i = 0; i < 4 * words; i++)
        bytes[i] = (uint8_t)(table[i / 4] >> i % 4 * 8);
}

/* ---- One call ---------------------------------------------------------- */

static void check_bytes(bench *at, const uint32_t *before, const uint32_t *call, second_reply reply,
                        const uint32_t *after)
{
    uint8_t bytes[BYTES_MOST], bytes_after[BYTES_MOST];

    to_bytes(bytes, before, words_of(at));
    to_bytes(bytes_after, after, words_of(at));
    if (!same_reply(second_call_bytes(bytes, bytes_of(at), call), reply) ||
        memcmp(bytes, bytes_after, bytes_of(at)) != 0)
        fail(at, call, "the byte version differs");
}

/* The mask by the records, the count by the bits of the mask. */
static void check_summary(bench *at, const uint32_t *table, uint32_t hub)
{
    second_summary_reply reply = second_summary(table, words_of(at), hub);
    uint32_t mask = 0, count = 0, refusal = 0;
    uint8_t bytes[BYTES_MOST];

    if (!well_formed(at, table))
        refusal = NOT_WELL_FORMED;
    else if (hub >= table[HUBS_IN_USE_AT])
        refusal = NOT_IN_USE;
    for (uint32_t task = 0; refusal == 0 && task < table[TASKS_IN_USE_AT]; task++)
        if (table[task_place(table, task) + T_STATE] == WAITING &&
            table[task_place(table, task) + T_HUB] == hub + 1)
            mask |= UINT32_C(1) << task;
    for (uint32_t rest = mask; rest != 0; rest &= rest - 1)
        count++;
    if (reply.refusal != refusal || reply.mask != mask || reply.count != count)
        fail(at, NULL, "the summary differs");

    to_bytes(bytes, table, words_of(at));
    second_summary_reply again = second_summary_bytes(bytes, bytes_of(at), hub);
    if (memcmp(&again, &reply, sizeof reply) != 0)
        fail(at, NULL, "the byte version of the summary differs");
    cover_summary(&at->seen, table, words_of(at), reply);
}

static void digest(bench *at, const uint32_t *words, size_t count)
{
    for (size_t i = 0; i < count; i++)
        at->digest = (at->digest ^ words[i]) * UINT64_C(0x100000001B3); /* as FNV-1a, by words */
}

/* ---- One listing ------------------------------------------------------- */

enum { PAST = 24, TEXT_BYTES = LISTING_MOST + 2 * PAST }; /* no room reaches the last PAST */

/* What a buffer holds before: at no place what a listing would write there. */
static void hold(bench *at, uint8_t *text)
{
    for (size_t i = 0; i < TEXT_BYTES; i++)
        text[i] = (uint8_t)(0x80 | gen_word(&at->other));
}

static void check_listing_bytes(bench *at, const uint32_t *table, const uint8_t *held, size_t room,
                                second_listing_reply reply, const uint8_t *after)
{
    uint8_t bytes[BYTES_MOST], text[TEXT_BYTES];

    to_bytes(bytes, table, words_of(at));
    memcpy(text, held, sizeof text);
    second_listing_reply again = second_listing_bytes(bytes, bytes_of(at), text, room);
    if (memcmp(&again, &reply, sizeof reply) != 0 || memcmp(text, after, sizeof text) != 0)
        fail(at, NULL, "the byte version of the listing differs");
}

static void digest_listing(bench *at, size_t room, second_listing_reply reply, const uint8_t *text)
{
    uint64_t mixed = at->listings_digest;

    mixed = (mixed ^ room) * UINT64_C(0x100000001B3);
    mixed = (mixed ^ reply.refusal) * UINT64_C(0x100000001B3);
    for (size_t i = 0; i < reply.length; i++)
        mixed = (mixed ^ text[i]) * UINT64_C(0x100000001B3);
    at->listings_digest = mixed;
}

static second_listing_reply check_listing(bench *at, const uint32_t *table, size_t room)
{
    uint8_t held[TEXT_BYTES], text[TEXT_BYTES], expected[TEXT_BYTES];

    hold(at, held);
    memcpy(text, held, sizeof text);
    memcpy(expected, held, sizeof expected);
    at->listings++;
    second_listing_reply reply = second_listing(table, words_of(at), text, room);
    second_listing_reply expects = expect_listing(table, words_of(at), expected, room);
    size_t needed = expects.refusal == NOT_WELL_FORMED
                        ? 0
                        : expect_listing_length(table, words_of(at));

    if (reply.refusal != expects.refusal)
        fail(at, NULL, "the listing: another refusal was expected");
    if (reply.refusal != ACCEPTED && reply.length != 0)
        fail(at, NULL, "a refused listing has a length");
    if (reply.refusal != ACCEPTED && memcmp(text, held, sizeof text) != 0)
        fail(at, NULL, "a refused listing was written");
    if (reply.refusal == ACCEPTED && reply.length != needed)
        fail(at, NULL, "the listing has another length than its numbers make");
    if (reply.length != expects.length || memcmp(text, expected, reply.length) != 0)
        fail(at, NULL, "another listing was expected");
    if (memcmp(text, expected, sizeof text) != 0)
        fail(at, NULL, "a byte after the listing changed");
    if (at->listings % 4 == 0)
        check_listing_bytes(at, table, held, room, reply, text);
    cover_listing(&at->seen, table, needed, room, reply);
    digest_listing(at, room, reply, text);
    return reply;
}

/* None, one byte too few, just enough, one more, or any. */
static size_t draw_room(bench *at, const uint32_t *table)
{
    uint32_t any = gen_below(&at->other, LISTING_MOST + PAST + 1);
    uint32_t needed = well_formed(at, table)
                          ? (uint32_t)expect_listing_length(table, words_of(at))
                          : any;

    switch (gen_below(&at->other, 8)) {
    case 0:
        return gen_below(&at->other, 15);
    case 1:
        return needed > 0 ? needed - 1 : 0;
    case 2:
        return needed;
    case 3:
        return needed + 1 <= LISTING_MOST + PAST ? needed + 1 : needed;
    case 4:
        return LISTING_MOST + PAST;
    default:
        return any;
    }
}

/* Two well-formed tables: one listing exactly if one set-up, and exactly if the
 * tables are the same once all else is stripped off. Gives whether they are. */
static int check_pair(bench *at, const uint32_t *a, const uint32_t *b)
{
    uint8_t text_a[LISTING_MOST], text_b[LISTING_MOST];
    uint32_t stripped_a[WORDS_MOST], stripped_b[WORDS_MOST];
    second_listing_reply of_a = second_listing(a, words_of(at), text_a, sizeof text_a);
    second_listing_reply of_b = second_listing(b, words_of(at), text_b, sizeof text_b);
    int same = of_a.length == of_b.length && memcmp(text_a, text_b, of_a.length) == 0;

    if (of_a.refusal != ACCEPTED || of_b.refusal != ACCEPTED)
        fail(at, NULL, "704 bytes are enough for every listing");
    expect_stripped(a, words_of(at), stripped_a, words_of(at));
    expect_stripped(b, words_of(at), stripped_b, words_of(at));
    if (same != expect_same_set_up(a, b, words_of(at)) ||
        same != same_words(at, stripped_a, stripped_b))
        fail(at, NULL, "one listing exactly if one set-up");
    return same;
}

/* ---- One comparison ---------------------------------------------------- */

enum { BEHIND = 24, ROOM_WORDS = ENTRY_WORDS * WORDS_MOST }; /* enough for every comparison */
enum { PLACES_WORDS = ROOM_WORDS + 2 * BEHIND };             /* no room reaches the last BEHIND */

/* Two tables, of WORDS_MOST words each whatever their lengths. */
typedef struct {
    uint32_t first[WORDS_MOST], second[WORDS_MOST];
    size_t first_words, second_words;
} pair;

static void hold_places(bench *at, uint32_t *places)
{
    for (size_t i = 0; i < PLACES_WORDS; i++)
        places[i] = gen_word(&at->third);
}

/* The places rise, and the new words put into the first table give the second. That no
 * entry is idle is told by its old word, which stands there, and isn't the new one. */
static void check_entries(bench *at, const pair *of, const uint32_t *places, uint32_t count)
{
    uint32_t table[WORDS_MOST];

    memcpy(table, of->first, sizeof table);
    for (uint32_t i = 0; i < count; i++) {
        const uint32_t *entry = places + ENTRY_WORDS * i;
        if (entry[E_PLACE] >= of->first_words || (i > 0 && entry[E_PLACE] <= entry[-ENTRY_WORDS]))
            fail(at, NULL, "the comparison: the places don't rise");
        if (entry[E_OLD] != of->first[entry[E_PLACE]] || entry[E_OLD] == entry[E_NEW])
            fail(at, NULL, "the comparison: an old word isn't the first table's, or is the new");
        table[entry[E_PLACE]] = entry[E_NEW];
    }
    if (memcmp(table, of->second, 4 * of->first_words) != 0)
        fail(at, NULL, "the comparison: the new words don't make the second table");
}

/* The second with the first: the same entries, old and new exchanged, and refused alike. */
static void check_exchanged(bench *at, const pair *of, size_t room, second_compare_reply reply,
                            const uint32_t *places)
{
    uint32_t back[PLACES_WORDS];
    second_compare_reply again = second_compare(of->second, of->second_words, of->first,
                                                of->first_words, back, room);

    if (again.refusal != reply.refusal || again.count != reply.count)
        fail(at, NULL, "the comparison the other way has another reply");
    for (uint32_t i = 0; i < ENTRY_WORDS * reply.count; i += ENTRY_WORDS)
        if (back[i + E_PLACE] != places[i + E_PLACE] || back[i + E_OLD] != places[i + E_NEW] ||
            back[i + E_NEW] != places[i + E_OLD])
            fail(at, NULL, "the comparison the other way isn't this one exchanged");
}

/* A table with itself, one and the same: nothing differs, and no room is needed. */
static void check_with_itself(bench *at, const uint32_t *table, size_t words)
{
    uint32_t place = 7;
    second_compare_reply reply = second_compare(table, words, table, words, &place, 0);

    if (reply.refusal != ACCEPTED || reply.count != 0 || place != 7)
        fail(at, NULL, "a table differs from itself");
}

/* The tables as bytes, which lie anywhere, one of them at an odd address. */
static void check_compare_bytes(bench *at, const pair *of, size_t first_bytes, size_t second_bytes,
                                size_t room, second_compare_reply reply, const uint32_t *held,
                                const uint32_t *after)
{
    uint8_t first[BYTES_MOST + 8], second[BYTES_MOST + 8];
    uint8_t first_before[BYTES_MOST + 8], second_before[BYTES_MOST + 8];
    size_t place = at->compares / 4 % 2, other = 1 - place;
    uint32_t places[PLACES_WORDS];

    memset(first, 0, sizeof first);
    memset(second, 0, sizeof second);
    to_bytes(first + place, of->first, WORDS_MOST);
    to_bytes(second + other, of->second, WORDS_MOST);
    memcpy(first_before, first, sizeof first);
    memcpy(second_before, second, sizeof second);
    memcpy(places, held, sizeof places);
    second_compare_reply again = second_compare_bytes(first + place, first_bytes, second + other,
                                                      second_bytes, places, room);
    if (again.refusal != reply.refusal || again.count != reply.count ||
        memcmp(places, after, sizeof places) != 0)
        fail(at, NULL, "the byte version of the comparison differs");
    if (memcmp(first, first_before, sizeof first) != 0 ||
        memcmp(second, second_before, sizeof second) != 0)
        fail(at, NULL, "the byte version of the comparison wrote to a table");
}

static void digest_compare(bench *at, size_t room, second_compare_reply reply,
                           const uint32_t *places)
{
    uint64_t mixed = at->compares_digest;

    mixed = (mixed ^ room) * UINT64_C(0x100000001B3);
    mixed = (mixed ^ reply.refusal) * UINT64_C(0x100000001B3);
    for (size_t i = 0; i < ENTRY_WORDS * (size_t)reply.count; i++)
        mixed = (mixed ^ places[i]) * UINT64_C(0x100000001B3);
    at->compares_digest = mixed;
}

/* So many words, and no table. */
static int is_malformed(const uint32_t *table, size_t words)
{
    return layout_for(words) != NULL && !expect_well_formed(table, words);
}

static second_compare_reply check_compare(bench *at, const pair *of, size_t room)
{
    uint32_t held[PLACES_WORDS], places[PLACES_WORDS], expected[PLACES_WORDS];
    pair lent = *of;

    hold_places(at, held);
    memcpy(places, held, sizeof places);
    memcpy(expected, held, sizeof expected);
    at->compares++;
    second_compare_reply reply = second_compare(lent.first, of->first_words, lent.second,
                                                of->second_words, places, room);
    second_compare_reply expects = expect_compare(of->first, of->first_words, of->second,
                                                  of->second_words, expected, room);
    size_t written = ENTRY_WORDS * (size_t)expects.count;

    if (reply.refusal != expects.refusal)
        fail(at, NULL, "the comparison: another refusal was expected");
    if (reply.refusal != ACCEPTED && reply.count != 0)
        fail(at, NULL, "a refused comparison has a count");
    if (reply.refusal != ACCEPTED && memcmp(places, held, sizeof places) != 0)
        fail(at, NULL, "a refused comparison was written");
    if (memcmp(&lent, of, sizeof lent) != 0)
        fail(at, NULL, "a comparison changed a table");
    if (reply.count != expects.count)
        fail(at, NULL, "the comparison: another count was expected");
    if (memcmp(places + written, held + written, sizeof held - 4 * written) != 0)
        fail(at, NULL, "a word past the last entry changed");
    if (reply.refusal == ACCEPTED)
        check_entries(at, of, places, reply.count);
    if (memcmp(places, expected, sizeof places) != 0)
        fail(at, NULL, "other entries were expected");
    if (reply.refusal != BAD_LENGTH && reply.refusal != NOT_WELL_FORMED) {
        check_exchanged(at, of, room, reply, places);
        check_with_itself(at, of->first, of->first_words);
    }
    if (at->compares % 4 == 0)
        check_compare_bytes(at, of, 4 * of->first_words, 4 * of->second_words, room, reply, held,
                            places);
    cover_compare(&at->seen, &(cover_compared){of->first, of->second, of->first_words,
                                               of->second_words, room,
                                               is_malformed(of->first, of->first_words),
                                               is_malformed(of->second, of->second_words), reply});
    digest_compare(at, room, reply, places);
    return reply;
}

/* The words that a comparison needs, if it isn't refused for its tables; else of any. */
static uint32_t words_needed(bench *at, const pair *of)
{
    uint32_t places[ROOM_WORDS];
    second_compare_reply reply = expect_compare(of->first, of->first_words, of->second,
                                                of->second_words, places, ROOM_WORDS);

    return reply.refusal == ACCEPTED ? ENTRY_WORDS * reply.count
                                     : ENTRY_WORDS * gen_below(&at->third, WORDS_MOST);
}

/* None, less than an entry, up to one entry too few, just enough, up to one entry more, much
 * more, or any. */
static size_t draw_words(bench *at, const pair *of)
{
    uint32_t needed = words_needed(at, of), draw = gen_below(&at->third, 10);
    uint32_t some = 1 + gen_below(&at->third, ENTRY_WORDS);

    if (draw < 2)
        return draw == 0 ? 0 : some - 1;
    if (draw < 5)
        return needed >= some ? needed - some : 0;
    if (draw < 7)
        return needed;
    if (draw < 9)
        return needed + (draw == 7 ? some : BEHIND);
    return gen_below(&at->third, ROOM_WORDS + 1);
}

/* Two tables of the edition at hand. */
static pair pair_of(const bench *at, const uint32_t *first, const uint32_t *second)
{
    pair of = {.first_words = words_of(at), .second_words = words_of(at)};

    memcpy(of.first, first, bytes_of(at));
    memcpy(of.second, second, bytes_of(at));
    return of;
}

/* The tables before and after a call. */
static void compare_neighbours(bench *at, const uint32_t *before, const uint32_t *call,
                               uint32_t refusal, const uint32_t *after)
{
    pair of = pair_of(at, before, after);

    if (check_compare(at, &of, draw_words(at, &of)).refusal != NOT_WELL_FORMED)
        cover_neighbours(&at->seen, call, refusal);
}

/* What an accepted call has to say as ahead, from the table after it alone: where the
 * caller waits by this call, the entries up to its own; else 0. */
static uint32_t ahead_read(const uint32_t *call, const uint32_t *after)
{
    const uint32_t *list = after + list_place(after, call[C_TARGET]);
    uint32_t ahead = 0;

    if (call[C_SERVICE] != HUB_REQUEST ||
        after[task_place(after, call[C_CALLER]) + T_STATE] != WAITING)
        return 0;
    while (ahead < LIST_WORDS && list[ahead] != call[C_CALLER] + 1)
        ahead++;
    return ahead;
}

static second_reply check_call(bench *at, uint32_t *table, const uint32_t *call)
{
    uint32_t before[WORDS_MOST], expected[WORDS_MOST];
    size_t words = words_of(at);
    const char *urgency;

    memcpy(before, table, bytes_of(at));
    memcpy(expected, table, bytes_of(at));
    at->calls++;
    second_reply reply = second_call(table, words, call);
    second_reply expects = expect_call(expected, words, call);

    if (reply.refusal != expects.refusal)
        fail(at, call, "another refusal was expected");
    if (reply.refusal != ACCEPTED && (reply.answer != 0 || reply.next != 0 || reply.ahead != 0))
        fail(at, call, "a refused call answered");
    if (reply.refusal != ACCEPTED && !same_words(at, table, before))
        fail(at, call, "a refused call changed the table");
    if (reply.refusal == ACCEPTED && second_well_formed(table, words) != SECOND_RIGHT)
        fail(at, call, "an accepted call left a table that isn't well formed");
    if (reply.refusal == ACCEPTED && !well_formed(at, table))
        fail(at, call, "an accepted call left a table that isn't well formed to expect.c");
    if (reply.answer > FAIL)
        fail(at, call, "the answer isn't nothing yet, OK or FAIL");
    if (reply.refusal == ACCEPTED && reply.next != expect_next(table, words))
        fail(at, call, "next isn't the running task");
    if (reply.refusal == ACCEPTED && reply.ahead != ahead_read(call, table))
        fail(at, call, "ahead isn't how many stand before the caller in the list");
    if (reply.refusal == ACCEPTED && (urgency = ledger_urgency(table, reply.next)) != NULL)
        fail(at, call, urgency);
    if (!same_reply(reply, expects))
        fail(at, call, "another reply was expected");
    if (!same_words(at, table, expected))
        fail(at, call, "another table was expected");
    cover_call(&at->seen, before, call, reply, table);
    digest(at, call, CALL_NUMBERS);
    digest(at, (uint32_t[]){reply.refusal, reply.answer, reply.next, reply.ahead}, 4);
    digest(at, table, words);
    if (at->calls % 16 == 0) {
        check_bytes(at, before, call, reply, table);
        check_summary(at, table, gen_below(&at->random, gen_chance(&at->random, 90) ? 6 : 40));
    }
    if (at->calls % 32 == 0) {
        check_listing(at, table, draw_room(at, table));
        if (reply.refusal == ACCEPTED && well_formed(at, before))
            cover_pair(&at->seen, check_pair(at, before, table) ? COVER_KEPT : COVER_ADDED);
        compare_neighbours(at, before, call, reply.refusal, table);
    }
    return reply;
}

/* One call of a run from Blank: demand 3 is checked too. With `alone` it is all that
 * is checked. */
static second_reply enter_call(bench *at, uint32_t *table, const uint32_t *call, int alone)
{
    uint32_t before[WORDS_MOST];
    const char *wrong;

    memcpy(before, table, bytes_of(at));
    second_reply reply = alone ? second_call(table, words_of(at), call)
                               : check_call(at, table, call);
    if ((wrong = ledger_enter(&at->book, before, call, reply, table)) != NULL)
        fail(at, call, wrong);
    return reply;
}

/* ---- One move ---------------------------------------------------------- */

typedef uint32_t words_move(const uint32_t *, size_t, uint32_t *, size_t);
typedef uint32_t bytes_move(const uint8_t *, size_t, uint8_t *, size_t);

static words_move *move_of(const bench *at)
{
    return at->form->edition == EDITION_1 ? second_move_up : second_move_down;
}

static const layout *other_form(const bench *at) { return &layouts[EDITION_2 - at->form->edition]; }

enum { TO_WORDS = WORDS_MOST + 4 }; /* no destination reaches the last two */

/* The same move over bytes, which lie anywhere: reply, and every byte of the destination. */
static void check_move_bytes(bench *at, const uint32_t *from, size_t length, size_t to_length,
                             uint32_t refusal, const uint32_t *held, const uint32_t *after)
{
    uint8_t source[4 * TO_WORDS + 1], to[4 * TO_WORDS + 1], expected[4 * TO_WORDS + 1];
    bytes_move *move = at->form->edition == EDITION_1 ? second_move_up_bytes
                                                      : second_move_down_bytes;
    size_t place = at->moves[0] % 2;

    memset(source, 0, sizeof source);
    memset(to, 0, sizeof to);
    memset(expected, 0, sizeof expected);
    to_bytes(source + place, from, words_of(at));
    to_bytes(to + place, held, TO_WORDS);
    to_bytes(expected + place, after, TO_WORDS);
    if (move(source + place, length, to + place, to_length) != refusal ||
        memcmp(to, expected, sizeof to) != 0)
        fail(at, NULL, "the byte version of the move differs");
}

/* A table and its move are of differing editions, whatever the room. */
static void compare_with_move(bench *at, const uint32_t *from, const uint32_t *moved)
{
    pair of = {.first_words = words_of(at), .second_words = other_form(at)->words};

    memcpy(of.first, from, bytes_of(at));
    memcpy(of.second, moved, 4 * of.second_words);
    if (check_compare(at, &of, draw_words(at, &of)).refusal != DIFFERING_EDITIONS)
        fail(at, NULL, "a table was compared with its move");
    cover_compare_moved(&at->seen);
}

/* A move from a table of this edition, of WORDS_MOST words whatever its length, into a
 * destination of so many words. */
static uint32_t check_move(bench *at, const uint32_t *from, size_t from_words, size_t to_words,
                           uint32_t *moved)
{
    uint32_t to[TO_WORDS], held[TO_WORDS], expected[TO_WORDS], source[WORDS_MOST];
    int sizes = from_words == words_of(at) && to_words == other_form(at)->words;
    cover_moved of = {from_words, to_words, 0, 0, 0};

    for (size_t i = 0; i < TO_WORDS; i++)
        held[i] = gen_word(&at->other);
    memcpy(to, held, sizeof to);
    memcpy(expected, held, sizeof expected);
    memcpy(source, from, sizeof source);
    at->moves[at->form->edition - EDITION_1]++;
    of.refusal = move_of(at)(source, from_words, to, to_words);
    of.malformed = !well_formed(at, from);
    of.high_words = at->form->edition == EDITION_2 ? expect_high_words(from) : 0;

    if (of.refusal != (sizes ? expect_move(from, from_words, expected, to_words) : 1))
        fail(at, NULL, "the move: another refusal was expected");
    if (memcmp(source, from, sizeof source) != 0)
        fail(at, NULL, "a move changed its source");
    if (of.refusal != ACCEPTED && memcmp(to, held, sizeof to) != 0)
        fail(at, NULL, "a refused move wrote");
    if (memcmp(to, expected, sizeof to) != 0)
        fail(at, NULL, "another table moved was expected");
    if (of.refusal == ACCEPTED && (second_well_formed(to, to_words) != SECOND_RIGHT ||
                                   !expect_well_formed(to, to_words)))
        fail(at, NULL, "a move left a table that isn't well formed");
    if (at->moves[at->form->edition - EDITION_1] % 4 == 0)
        check_move_bytes(at, from, 4 * from_words, 4 * to_words, of.refusal, held, to);
    cover_move(&at->seen, from, &of);
    at->moves_digest = (at->moves_digest ^ of.refusal) * UINT64_C(0x100000001B3);
    for (size_t i = 0; of.refusal == ACCEPTED && i < to_words; i++)
        at->moves_digest = (at->moves_digest ^ to[i]) * UINT64_C(0x100000001B3);
    at->moved[at->form->edition - EDITION_1] += of.refusal == ACCEPTED;
    memcpy(moved, to, WORDS_MOST * sizeof *to);
    if (of.refusal == ACCEPTED && at->moves[at->form->edition - EDITION_1] % 16 == 0)
        compare_with_move(at, from, moved);
    return of.refusal;
}

/* The move of a table of this edition to the other: the edition stays as it is. */
static uint32_t move_table(bench *at, const uint32_t *from, uint32_t *moved)
{
    return check_move(at, from, words_of(at), other_form(at)->words, moved);
}

static void end_run(bench *at, const uint32_t *call, const uint32_t *table)
{
    const char *wrong = ledger_end(&at->book, table);

    if (wrong != NULL)
        fail(at, call, wrong);
}

/* ---- Constructed cases ------------------------------------------------- */

/* One call on the table of the step before, its reply, and up to four words of
 * the table after it ({0, 0} ends them: the edition is never asked for). */
typedef struct {
    uint32_t call[8]; /* the high word is 0 where seven numbers are written */
    second_reply reply;
    struct {
        uint32_t at, value;
    } words[5];
} step;

/* Where edition 2 has what stands at this place of edition 1. */
static uint32_t place_in_2(uint32_t place)
{
    if (place < 8)
        return place;
    if (place < 136)
        return 8 + (place - 8) / 8 * 9 + (place - 8) % 8 + ((place - 8) % 8 == 7);
    return place < 472 ? place + 16 : 488 + 2 * (place - 472);
}

/* In edition 2, with places of edition 1, which are then looked for where edition 2 has
 * them; the starts of the bodies are 16 more, but for the first. */
static void look(bench *at, const uint32_t *table, const step *it, int mapped)
{
    for (int j = 0; it->words[j].at != 0; j++) {
        uint32_t place = it->words[j].at, value = it->words[j].value;
        if (mapped && place > 3 && place < 8)
            value += 16;
        if (table[mapped ? place_in_2(place) : place] != value)
            fail(at, it->call, "the case expects another word");
    }
}

static void take_steps_in(bench *at, const char *name, const step *steps, size_t count, int mapped)
{
    uint32_t table[WORDS_MOST] = {0};

    at->part = name;
    ledger_begin(&at->book);
    for (size_t i = 0; i < count; i++) {
        at->seed = i + 1;
        if (!same_reply(enter_call(at, table, steps[i].call, 0), steps[i].reply))
            fail(at, steps[i].call, "the case expects another reply");
        look(at, table, &steps[i], mapped);
    }
    end_run(at, NULL, table);
}

/* On both editions: document 01's cases don't ask for a high word. */
static void take_steps(bench *at, const char *name, const step *steps, size_t count)
{
    for (uint32_t edition = EDITION_2; edition >= EDITION_1; edition--) {
        set_edition(at, edition);
        take_steps_in(at, name, steps, count, edition == EDITION_2);
    }
}

#define TAKE_STEPS(at, name, steps) take_steps(at, name, steps, sizeof(steps) / sizeof *(steps))
#define MAX UINT32_C(4294967295)

/* Places: task n's record is at 8 + 8n, hub n's at 136 + 4n, the ready list at
 * 200, hub n's list at 216 + 16n, its store at 472 + 8n; in the cases of edition 2 at 8 + 9n
 * (its message at 14 + 9n and 15 + 9n), 152 + 4n, 216, 232 + 16n and 488 + 16n. */

static void case_marked(bench *at)
{
    static const step steps[] = {
        {{0, 0, 0, 0, 0, 0, 0}, {0, 0, 0, 0}, {{3, 8}, {5, 200}, {6, 216}, {7, 472}}},
        {{9, 0, 5, 1, 0, 0, 0}, {0, 0, 1, 0}, {{8, 2}, {10, 5}, {200, 1}}},
        {{9, 0, 3, 1, 0, 0, 0}, {0, 0, 2, 0}, {{200, 2}, {201, 1}}},
        {{10, 0, 4, 0, 0, 1, 0}, {0, 0, 2, 0}, {{136, 4}, {138, 1}}},
        {{1, 1, 0, 2, 3, 2, 0}, {0, 0, 1, 0}, {{16, 3}, {19, 1}, {20, 2}, {216, 2}}},
        {{1, 0, 0, 1, 1, 0, 77}, {0, 1, 2, 0}, {{22, 77}, {23, 1}, {137, 0}, {472, 0}}},
        {{1, 0, 0, 1, 1, 0, 5}, {4, 0, 0, 0}, {{0, 0}}},
        {{1, 1, 0, 1, 2, 0, 9}, {0, 1, 2, 0}, {{22, 0}, {137, 1}, {472, 9}}},
        {{1, 1, 0, 1, 2, 0, 10}, {0, 2, 2, 0}, {{22, 0}, {23, 2}, {137, 1}, {472, 9}}},
        {{1, 1, 0, 1, 3, 1, 10}, {0, 0, 1, 0}, {{16, 3}, {22, 10}, {216, 2}, {200, 1}}},
        {{8, 0, 0, 0, 0, 0, 0}, {0, 0, 2, 0}, {{16, 2}, {23, 3}, {22, 0}, {216, 0}}},
    };
    TAKE_STEPS(at, "marked lines", steps);
}

static void case_refusal_order(bench *at)
{
    static const step steps[] = {
        {{11, 0, 0, 0, 0, 0, 0}, {2, 0, 0, 0}, {{0, 0}}}, /* all zeros isn't well formed */
        {{8, 0, 0, 0, 0, 0, 0}, {2, 0, 0, 0}, {{0, 0}}},
        {{0, MAX, MAX, MAX, MAX, MAX, MAX}, {0, 0, 0, 0}, {{0, 0}}},
        {{11, MAX, MAX, MAX, MAX, MAX, MAX}, {3, 0, 0, 0}, {{0, 0}}},
        {{MAX, 0, 0, 0, 0, 0, 0}, {3, 0, 0, 0}, {{0, 0}}},
        {{6, 0, 0, 0, 0, 0, 0}, {4, 0, 0, 0}, {{0, 0}}}, /* nobody runs */
        {{6, MAX, 0, 0, 0, 0, 0}, {4, 0, 0, 0}, {{0, 0}}},
        {{9, 0, 256, 1, 0, 0, 0}, {6, 0, 0, 0}, {{0, 0}}},
        {{9, 0, 255, 1, 0, 0, 0}, {0, 0, 1, 0}, {{0, 0}}},
        {{1, 1, 9, 9, 9, 9, 9}, {4, 0, 0, 0}, {{0, 0}}}, /* 4 before 5 and 6 */
        {{1, 0, 0, 9, 9, 9, 9}, {5, 0, 0, 0}, {{0, 0}}}, /* 5 before 6 */
        {{2, 0, 1, 9, 9, 9, 9}, {5, 0, 0, 0}, {{0, 0}}},
        {{7, 1, 0, 0, 0, 0, 0}, {4, 0, 0, 0}, {{0, 0}}},
        {{7, 0, 0, 0, 0, 0, 0}, {6, 0, 0, 0}, {{0, 0}}},
        {{10, 0, 5, 0, 0, 1, 0}, {0, 0, 1, 0}, {{0, 0}}},
        {{1, 0, 0, 1, 0, 0, 0}, {6, 0, 0, 0}, {{0, 0}}}, /* 6 before the hub table's FAIL */
        {{1, 0, 0, 1, 3, 0, 0}, {6, 0, 0, 0}, {{0, 0}}},
        {{1, 0, 0, 1, 2, 1, 0}, {6, 0, 0, 0}, {{0, 0}}},
        {{1, 0, 0, 1, 2, 0, 0}, {0, 2, 1, 0}, {{0, 0}}},
        {{1, 0, MAX, 1, 2, 0, 0}, {5, 0, 0, 0}, {{0, 0}}},
        {{1, 0, 1, 1, 2, 0, 0}, {5, 0, 0, 0}, {{0, 0}}},
    };
    TAKE_STEPS(at, "order of refusals", steps);
}

/* The four slips at the end of document 01. */
static void case_slips(bench *at)
{
    static const step steps[] = {
        {{0, 0, 0, 0, 0, 0, 0}, {0, 0, 0, 0}, {{0, 0}}},
        {{9, 0, 7, 1, 0, 0, 0}, {0, 0, 1, 0}, {{0, 0}}},
        {{9, 0, 7, 1, 0, 0, 0}, {0, 0, 1, 0}, {{200, 1}, {201, 2}}}, /* equals go behind */
        {{9, 0, 7, 1, 0, 0, 0}, {0, 0, 1, 0}, {{200, 1}, {201, 2}, {202, 3}}},
        {{10, 0, 4, 0, 0, 2, 0}, {0, 0, 1, 0}, {{0, 0}}},
        {{1, 0, 0, 2, 3, 1, 0}, {0, 0, 2, 0}, {{216, 1}}},
        {{1, 1, 0, 2, 1, 0, 0}, {0, 0, 3, 1}, {{216, 1}, {217, 2}}},
        {{8, 0, 0, 0, 0, 0, 0}, {0, 0, 3, 0}, {{15, 3}, {216, 2}, {217, 0}}}, /* TO, and gone */
        {{1, 2, 0, 1, 1, 0, 55}, {0, 1, 3, 0}, {{22, 55}, {23, 1}, {14, 0}, {137, 0}}},
        {{1, 2, 0, 1, 1, 0, 56}, {0, 1, 3, 0}, {{472, 56}, {473, 0}, {137, 1}}},
        {{6, 2, 0, 0, 0, 0, 0}, {0, 1, 1, 0}, {{200, 1}, {201, 2}, {202, 3}}},
        {{1, 0, 0, 2, 2, 0, 0}, {0, 1, 1, 0}, {{14, 56}, {137, 0}, {472, 0}}}, /* read once */
        {{1, 0, 0, 2, 2, 0, 0}, {0, 2, 1, 0}, {{14, 0}}},
    };
    TAKE_STEPS(at, "slips", steps);
}

static void case_resource(bench *at)
{
    static const step steps[] = {
        {{0, 0, 0, 0, 0, 0, 0}, {0, 0, 0, 0}, {{0, 0}}},
        {{9, 0, 2, 1, 0, 0, 0}, {0, 0, 1, 0}, {{0, 0}}},
        {{9, 0, 2, 1, 0, 0, 0}, {0, 0, 1, 0}, {{0, 0}}},
        {{10, 0, 5, 0, 0, 1, 0}, {0, 0, 1, 0}, {{0, 0}}},
        {{1, 0, 0, 2, 1, 0, 0}, {0, 1, 1, 0}, {{137, 1}}},
        {{1, 0, 0, 2, 1, 0, 0}, {0, 2, 1, 0}, {{137, 1}, {8, 2}}}, /* second lock by the owner */
        {{1, 0, 0, 2, 3, 9, 0}, {0, 2, 1, 0}, {{137, 1}, {8, 2}}},
        {{6, 0, 0, 0, 0, 0, 0}, {0, 1, 2, 0}, {{0, 0}}},
        {{1, 1, 0, 1, 1, 0, 0}, {0, 2, 2, 0}, {{137, 1}}}, /* unlock by another */
        {{1, 1, 0, 2, 3, 9, 0}, {0, 0, 1, 0}, {{216, 2}, {20, 9}}},
        {{4, 0, 1, 0, 0, 0, 0}, {0, 1, 1, 0}, {{17, 1}, {216, 2}}},
        {{1, 0, 0, 1, 1, 0, 0}, {0, 1, 1, 0}, {{137, 2}, {216, 0}, {20, 0}, {17, 1}}},
        {{3, 0, 1, 0, 0, 0, 0}, {0, 1, 1, 0}, {{137, 0}, {16, 1}, {17, 0}}}, /* becomes free */
        {{1, 0, 0, 2, 2, 0, 0}, {0, 1, 1, 0}, {{137, 1}}},
        {{2, 0, 1, 0, 0, 0, 0}, {0, 1, 1, 0}, {{137, 1}}},
        {{6, 0, 0, 0, 0, 0, 0}, {0, 1, 2, 0}, {{0, 0}}},
        {{1, 1, 0, 1, 2, 0, 0}, {0, 2, 2, 0}, {{137, 1}}}, /* a restarted owner owns no more */
    };
    TAKE_STEPS(at, "Resource", steps);
}

/* M-101: task 0 owns three Resources; task 1 waits for the third, with ticks, task
 * 2, suspended, and task 4 for the first, nobody for the second. Task 3 stops it. */
static void case_stop(bench *at)
{
    static const step steps[] = {
        {{0, 0, 0, 0, 0, 0, 0}, {0, 0, 0, 0}, {{0, 0}}},
        {{10, 0, 5, 0, 0, 1, 0}, {0, 0, 0, 0}, {{0, 0}}},
        {{10, 0, 5, 0, 0, 1, 0}, {0, 0, 0, 0}, {{0, 0}}},
        {{10, 0, 5, 0, 0, 1, 0}, {0, 0, 0, 0}, {{0, 0}}},
        {{9, 0, 3, 1, 0, 0, 0}, {0, 0, 1, 0}, {{0, 0}}},
        {{1, 0, 2, 2, 1, 0, 0}, {0, 1, 1, 0}, {{145, 1}}},
        {{1, 0, 0, 2, 1, 0, 0}, {0, 1, 1, 0}, {{137, 1}}},
        {{1, 0, 1, 2, 1, 0, 0}, {0, 1, 1, 0}, {{141, 1}}},
        {{7, 0, 0, 0, 0, 100, 0}, {0, 0, 0, 0}, {{12, 100}}},
        {{9, 0, 4, 1, 0, 0, 0}, {0, 0, 2, 0}, {{0, 0}}},
        {{1, 1, 2, 2, 3, 5, 0}, {0, 0, 0, 0}, {{248, 2}, {20, 5}}},
        {{9, 0, 4, 1, 0, 0, 0}, {0, 0, 3, 0}, {{0, 0}}},
        {{1, 2, 0, 2, 1, 0, 0}, {0, 0, 0, 0}, {{216, 3}}},
        {{9, 0, 6, 1, 0, 0, 0}, {0, 0, 4, 0}, {{0, 0}}},
        {{9, 0, 4, 1, 0, 0, 0}, {0, 0, 5, 0}, {{0, 0}}},
        {{1, 4, 0, 2, 3, 9, 0}, {0, 0, 4, 1}, {{217, 5}, {44, 9}}},
        {{4, 3, 2, 0, 0, 0, 0}, {0, 1, 4, 0}, {{25, 1}}},
        {{3, 3, 0, 0, 0, 0, 0}, {0, 1, 2, 0}, {{137, 3}, {141, 0}, {145, 2}, {8, 1}}},
        {{1, 1, 1, 2, 2, 0, 0}, {0, 1, 2, 0}, {{200, 3}, {201, 2}, {202, 4}, {141, 2}}},
        {{8, 0, 0, 0, 0, 0, 0}, {0, 0, 2, 0}, {{12, 0}, {20, 0}, {31, 1}, {44, 8}}},
        {{3, 1, 2, 0, 0, 0, 0}, {0, 1, 2, 0}, {{137, 5}, {216, 0}, {201, 5}, {44, 0}}},
        {{3, 1, 1, 0, 0, 0, 0}, {0, 2, 2, 0}, {{141, 2}, {145, 2}}}, /* FAIL: it keeps its locks */
        {{2, 1, 0, 0, 0, 0, 0}, {0, 1, 1, 0}, {{0, 0}}},
        {{1, 0, 1, 1, 2, 0, 0}, {0, 2, 1, 0}, {{141, 2}}}, /* started again, it owns nothing */
        {{3, 0, 1, 0, 0, 0, 0}, {0, 1, 1, 0}, {{141, 0}, {145, 0}, {137, 5}}},
    };
    TAKE_STEPS(at, "Stop of an owner", steps);
}

/* 14 waiters met in one Stop, the most there can be: task 0 owns 14 Resources and
 * sleeps, tasks 1 to 14, all equals, wait for them from the last to the first, and
 * task 15 stops it. So the ready list is in hub number order, not in the tasks'. */
static void case_stop_14(bench *at)
{
    const uint32_t resource[8] = {10, 0, 5, 0, 0, 1, 0}, sleeps[8] = {7, 0, 0, 0, 0, 9, 0};
    uint32_t table[WORDS_MOST] = {0}, add[8] = {9, 0, 5, 1, 0, 0, 0};

    begin(at, "14 met by a Stop", 0);
    ledger_begin(&at->book);
    enter_call(at, table, (uint32_t[8]){0}, 0);
    enter_call(at, table, add, 0);
    for (uint32_t hub = 0; hub < 14; hub++) {
        enter_call(at, table, resource, 0);
        enter_call(at, table, (uint32_t[8]){1, 0, hub, 2, 1, 0, 0}, 0);
    }
    enter_call(at, table, sleeps, 0);
    for (uint32_t task = 1; task <= 14; task++) {
        enter_call(at, table, add, 0);
        enter_call(at, table, (uint32_t[8]){1, task, 14 - task, 2, 3, 7, 0}, 0);
    }
    add[C_TARGET] = 200;
    enter_call(at, table, add, 0);
    if (!same_reply(enter_call(at, table, (uint32_t[8]){3, 15, 0, 0, 0, 0, 0}, 0),
                    (second_reply){0, 1, 15, 0}))
        fail(at, NULL, "the waiter for the first Resource runs next");
    for (uint32_t hub = 0; hub < 14; hub++)
        if (table[200 + hub] != 15 - hub || table[137 + 4 * hub] != 15 - hub ||
            table[216 + 16 * hub] != 0)
            fail(at, NULL, "each Resource passed, in hub number order");
    if (table[214] != 16 || table[215] != 0)
        fail(at, NULL, "the caller is behind them");
    end_run(at, NULL, table);
}

/* A table that Stop left before M-101: task 1 inactive, and owner of the Resource. */
static void case_inactive_owner(bench *at)
{
    static const uint32_t calls[][8] = {
        {0}, {9, 0, 2, 1, 0, 0, 0}, {9, 0, 2, 0, 0, 0, 0}, {10, 0, 5, 0, 0, 1, 0},
    };
    uint32_t table[WORDS_MOST] = {0};
    uint8_t text[LISTING_MOST];

    begin(at, "inactive owner", 0);
    for (size_t i = 0; i < sizeof calls / sizeof *calls; i++)
        check_call(at, table, calls[i]);
    table[137] = 2;
    for (uint32_t service = 1; service <= 11; service++)
        if (check_call(at, table, (uint32_t[8]){service, 0, 0, 1, 2, 0, 0}).refusal != 2)
            fail(at, NULL, "an inactive owner is refusal 2");
    if (second_summary(table, words_of(at), 0).refusal != 2 ||
        second_listing(table, words_of(at), text, sizeof text).refusal != 2)
        fail(at, NULL, "an inactive owner is refusal 2 for summary and listing");
    table[137] = 1;
    if (check_call(at, table, (uint32_t[8]){6, 0, 0, 0, 0, 0, 0}).refusal != 0)
        fail(at, NULL, "an owner that isn't inactive");
    table[137] = 2;
    if (check_call(at, table, calls[0]).refusal != 0)
        fail(at, NULL, "Blank takes any table");
}

/* M-103, nobody waiting: a written 0, an update of a written Board, reads that take
 * nothing, wipes; every mode; side 3 elsewhere. */
static void case_board(bench *at)
{
    static const step steps[] = {
        {{0, 0, 0, 0, 0, 0, 0}, {0, 0, 0, 0}, {{0, 0}}},
        {{10, 0, 6, 0, 0, 0, 0}, {6, 0, 0, 0}, {{0, 0}}},
        {{10, 0, 6, 0, 0, 2, 0}, {6, 0, 0, 0}, {{0, 0}}},
        {{10, 0, 6, 0, 0, 1, 1}, {6, 0, 0, 0}, {{0, 0}}},
        {{10, 0, 6, 0, 0, 1, 0}, {0, 0, 0, 0}, {{136, 6}, {137, 0}, {138, 1}, {139, 0}}},
        {{10, 0, 4, 0, 0, 1, 0}, {0, 0, 0, 0}, {{0, 0}}},
        {{9, 0, 5, 1, 0, 0, 0}, {0, 0, 1, 0}, {{0, 0}}},
        {{1, 0, 0, 2, 2, 0, 9}, {0, 2, 1, 0}, {{8, 2}, {14, 0}, {137, 0}, {472, 0}}},
        {{1, 0, 0, 1, 2, 0, 0}, {0, 1, 1, 0}, {{14, 0}, {137, 1}, {472, 0}}}, /* a written 0 */
        {{1, 0, 0, 2, 1, 0, 9}, {0, 1, 1, 0}, {{8, 2}, {14, 0}, {137, 1}, {472, 0}}},
        {{1, 0, 0, 1, 1, 0, 7}, {0, 1, 1, 0}, {{14, 0}, {137, 1}, {472, 7}, {473, 0}}},
        {{1, 0, 0, 2, 3, 4, 9}, {0, 1, 1, 0}, {{14, 7}, {12, 0}, {137, 1}, {472, 7}}},
        {{1, 0, 0, 2, 2, 0, 9}, {0, 1, 1, 0}, {{14, 7}, {137, 1}, {472, 7}}}, /* it took nothing */
        {{1, 0, 0, 1, 3, 1, 8}, {0, 1, 1, 0}, {{14, 0}, {137, 1}, {472, 8}, {473, 0}}},
        {{1, 0, 0, 3, 3, 9, 5}, {0, 1, 1, 0}, {{14, 0}, {12, 0}, {137, 0}, {472, 0}}},
        {{1, 0, 0, 2, 2, 0, 0}, {0, 2, 1, 0}, {{14, 0}, {137, 0}, {472, 0}}},
        {{1, 0, 0, 3, 1, 0, 5}, {0, 1, 1, 0}, {{8, 2}, {14, 0}, {137, 0}, {472, 0}}},
        {{1, 0, 0, 3, 2, 0, 5}, {0, 1, 1, 0}, {{15, 1}, {14, 0}, {137, 0}, {472, 0}}},
        {{1, 1, 0, 3, 2, 0, 0}, {4, 0, 0, 0}, {{0, 0}}},
        {{1, 0, 2, 3, 2, 0, 0}, {5, 0, 0, 0}, {{0, 0}}}, /* 5 before 6 for side 3, too */
        {{1, 0, 1, 3, 2, 0, 0}, {6, 0, 0, 0}, {{0, 0}}}, /* a FIFO */
        {{1, 0, 0, 4, 2, 0, 0}, {6, 0, 0, 0}, {{0, 0}}},
        {{1, 0, 0, 3, 0, 0, 0}, {6, 0, 0, 0}, {{0, 0}}},
        {{1, 0, 0, 3, 4, 0, 0}, {6, 0, 0, 0}, {{0, 0}}},
        {{1, 0, 0, 3, 1, 1, 0}, {6, 0, 0, 0}, {{0, 0}}},
        {{1, 0, 0, 3, 3, 0, 0}, {6, 0, 0, 0}, {{0, 0}}},
        {{1, 0, 0, 1, 2, 1, 0}, {6, 0, 0, 0}, {{0, 0}}},
    };
    TAKE_STEPS(at, "Board", steps);
}

/* M-103, three readers: task 2 before its elders, 0 with ticks and 1 suspended, both
 * equals of task 4, which updates. Task 3 wipes while they wait. */
static void case_readers(bench *at)
{
    static const step steps[] = {
        {{0, 0, 0, 0, 0, 0, 0}, {0, 0, 0, 0}, {{0, 0}}},
        {{10, 0, 3, 0, 0, 0, 0}, {0, 0, 0, 0}, {{0, 0}}},
        {{10, 0, 6, 0, 0, 1, 0}, {0, 0, 0, 0}, {{140, 6}}},
        {{9, 0, 4, 1, 0, 0, 0}, {0, 0, 1, 0}, {{0, 0}}},
        {{1, 0, 1, 2, 3, 3, 55}, {0, 0, 0, 0}, {{8, 3}, {12, 3}, {13, 2}, {14, 0}}},
        {{9, 0, 4, 1, 0, 0, 0}, {0, 0, 2, 0}, {{0, 0}}},
        {{1, 1, 1, 2, 1, 0, 0}, {0, 0, 0, 1}, {{232, 1}, {233, 2}}},
        {{9, 0, 3, 1, 0, 0, 0}, {0, 0, 3, 0}, {{0, 0}}},
        {{1, 2, 1, 2, 3, 9, 0}, {0, 0, 0, 0}, {{232, 3}, {233, 1}, {234, 2}}},
        {{9, 0, 6, 1, 0, 0, 0}, {0, 0, 4, 0}, {{0, 0}}},
        {{4, 3, 1, 0, 0, 0, 0}, {0, 1, 4, 0}, {{17, 1}}},
        {{1, 3, 1, 3, 1, 0, 5}, {0, 1, 4, 0}, {{232, 3}, {233, 1}, {234, 2}, {141, 0}}},
        {{8, 0, 0, 0, 0, 0, 0}, {0, 0, 4, 0}, {{12, 2}, {20, 0}, {28, 8}, {8, 3}}},
        {{9, 0, 4, 1, 0, 0, 0}, {0, 0, 5, 0}, {{0, 0}}},
        {{1, 4, 1, 1, 3, 7, 77}, {0, 1, 3, 0}, {{14, 77}, {22, 77}, {30, 77}, {46, 0}}},
        {{11, 0, 0, 0, 0, 0, 0}, {3, 0, 0, 0}, {{200, 3}, {201, 5}, {202, 1}, {203, 2}}},
        {{11, 0, 0, 0, 0, 0, 0}, {3, 0, 0, 0}, {{204, 4}, {232, 0}, {141, 1}, {480, 77}}},
        {{11, 0, 0, 0, 0, 0, 0}, {3, 0, 0, 0}, {{12, 0}, {13, 0}, {15, 1}, {17, 1}}},
        {{1, 2, 1, 3, 2, 0, 0}, {0, 1, 3, 0}, {{141, 0}, {480, 0}, {14, 77}, {30, 0}}},
        {{1, 2, 1, 2, 3, 1, 0}, {0, 0, 5, 0}, {{232, 3}}},
        {{8, 0, 0, 0, 0, 0, 0}, {0, 0, 3, 0}, {{31, 3}, {30, 0}, {232, 0}, {24, 2}}}, /* TO */
        {{1, 2, 1, 2, 1, 0, 0}, {0, 0, 5, 0}, {{232, 3}}},
        {{3, 4, 2, 0, 0, 0, 0}, {0, 1, 5, 0}, {{232, 0}, {24, 1}}}, /* and withdrawn */
        {{1, 4, 1, 1, 2, 0, 6}, {0, 1, 5, 0}, {{480, 6}, {22, 77}}},
    };
    TAKE_STEPS(at, "readers of a Board", steps);
}

/* 15 readers met in one update, the most there can be: tasks 1 to 15, all equals, wait
 * from the last to the first, and task 0 updates. So the ready list is in the list's
 * order, not in the tasks'. */
static void case_readers_15(bench *at)
{
    uint32_t table[WORDS_MOST] = {0};

    begin(at, "15 met by an update", 0);
    ledger_begin(&at->book);
    enter_call(at, table, (uint32_t[8]){0}, 0);
    enter_call(at, table, (uint32_t[8]){10, 0, 6, 0, 0, 1, 0}, 0);
    enter_call(at, table, (uint32_t[8]){9, 0, 200, 1, 0, 0, 0}, 0);
    for (uint32_t task = 1; task <= 15; task++)
        enter_call(at, table, (uint32_t[8]){9, 0, 5, 0, 0, 0, 0}, 0);
    for (uint32_t task = 15; task >= 1; task--) {
        enter_call(at, table, (uint32_t[8]){2, 0, task, 0, 0, 0, 0}, 0);
        enter_call(at, table, (uint32_t[8]){1, task, 0, 2, 3, 7, 0}, 0);
    }
    if (!same_reply(enter_call(at, table, (uint32_t[8]){1, 0, 0, 1, 1, 0, MAX}, 0),
                    (second_reply){0, 1, 16, 0}))
        fail(at, NULL, "the reader who waited longest runs next");
    for (uint32_t i = 0; i < 15; i++)
        if (table[200 + i] != 16 - i || table[22 + 8 * i] != MAX || table[23 + 8 * i] != 1)
            fail(at, NULL, "each reader was met with the word, in list order");
    if (table[215] != 1 || table[216] != 0 || table[137] != 1 || table[472] != MAX)
        fail(at, NULL, "the caller is behind them, and the Board is written");
    end_run(at, NULL, table);
}

/* M-107, nobody waiting: limits and starts; three blocks taken from the lowest on, put in
 * another order and taken again; not now; and every FAIL, in every mode. */
static void case_blocks(bench *at)
{
    static const step steps[] = {
        {{0, 0, 0, 0, 0, 0, 0}, {0, 0, 0, 0}, {{0, 0}}},
        {{10, 0, 7, 0, 0, 0, 0}, {6, 0, 0, 0}, {{0, 0}}},
        {{10, 0, 7, 0, 0, 9, 9}, {6, 0, 0, 0}, {{0, 0}}},
        {{10, 0, 7, 0, 0, 3, 0}, {6, 0, 0, 0}, {{0, 0}}},
        {{10, 0, 7, 0, 0, 3, 2}, {6, 0, 0, 0}, {{0, 0}}},
        {{10, 0, 7, 0, 0, 3, 4}, {6, 0, 0, 0}, {{0, 0}}},
        {{10, 0, 8, 0, 0, 3, 3}, {6, 0, 0, 0}, {{2, 0}}},
        {{10, 0, 7, 0, 0, 8, 8}, {0, 0, 0, 0}, {{136, 7}, {137, 8}, {138, 8}, {139, 8}}},
        {{10, 0, 7, 0, 0, 3, 3}, {0, 0, 0, 0}, {{140, 7}, {141, 3}, {142, 3}, {143, 3}}},
        {{9, 0, 5, 1, 0, 0, 0}, {0, 0, 1, 0}, {{0, 0}}},
        {{1, 0, 1, 1, 2, 0, 0}, {0, 2, 1, 0}, {{141, 3}, {480, 0}, {8, 2}, {14, 0}}}, /* FAIL: in */
        {{1, 0, 1, 1, 1, 0, 0}, {0, 2, 1, 0}, {{141, 3}, {480, 0}, {8, 2}}},
        {{1, 0, 1, 1, 3, 5, 2}, {0, 2, 1, 0}, {{141, 3}, {482, 0}, {8, 2}, {12, 0}}},
        {{1, 0, 1, 2, 2, 0, 9}, {0, 1, 1, 0}, {{14, 0}, {15, 1}, {141, 2}, {480, 1}}}, /* block 0 */
        {{1, 0, 1, 2, 1, 0, 9}, {0, 1, 1, 0}, {{14, 1}, {141, 1}, {480, 1}, {481, 1}}},
        {{1, 0, 1, 2, 3, 4, 9}, {0, 1, 1, 0}, {{14, 2}, {12, 0}, {141, 0}, {482, 1}}},
        {{1, 0, 1, 2, 2, 0, 9}, {0, 2, 1, 0}, {{14, 0}, {141, 0}, {483, 0}}}, /* none left */
        {{1, 0, 1, 1, 1, 0, 3}, {0, 2, 1, 0}, {{8, 2}, {141, 0}, {483, 0}}}, /* the limit */
        {{1, 0, 1, 1, 2, 0, 4}, {0, 2, 1, 0}, {{8, 2}, {141, 0}, {484, 0}}},
        {{1, 0, 1, 1, 3, 9, 8}, {0, 2, 1, 0}, {{8, 2}, {141, 0}, {488, 0}}},
        {{1, 0, 1, 1, 1, 0, MAX}, {0, 2, 1, 0}, {{8, 2}, {141, 0}}},
        {{1, 0, 1, 1, 1, 0, 1}, {0, 1, 1, 0}, {{14, 0}, {141, 1}, {481, 0}, {480, 1}}},
        {{1, 0, 1, 1, 1, 0, 1}, {0, 2, 1, 0}, {{8, 2}, {141, 1}, {481, 0}}}, /* it is in by now */
        {{1, 0, 1, 1, 2, 0, 0}, {0, 1, 1, 0}, {{14, 0}, {141, 2}, {480, 0}, {482, 1}}},
        {{1, 0, 1, 2, 2, 0, 2}, {0, 1, 1, 0}, {{14, 0}, {141, 1}, {480, 1}}}, /* the lowest */
        {{1, 0, 1, 2, 2, 0, 0}, {0, 1, 1, 0}, {{14, 1}, {141, 0}, {481, 1}}}, /* used again */
        {{1, 0, 1, 1, 3, 1, 2}, {0, 1, 1, 0}, {{14, 0}, {12, 0}, {141, 1}, {482, 0}}},
        {{1, 0, 1, 2, 3, 1, 2}, {0, 1, 1, 0}, {{14, 2}, {141, 0}, {482, 1}, {483, 0}}},
        {{1, 0, 0, 2, 1, 0, 0}, {0, 1, 1, 0}, {{14, 0}, {137, 7}, {472, 1}, {141, 0}}}, /* hub 0 */
        {{1, 0, 2, 3, 2, 0, 0}, {5, 0, 0, 0}, {{0, 0}}},
        {{1, 0, 1, 3, 2, 0, 0}, {6, 0, 0, 0}, {{0, 0}}}, /* no Board */
        {{1, 0, 1, 1, 1, 1, 0}, {6, 0, 0, 0}, {{480, 1}}},
        {{1, 0, 1, 2, 4, 0, 0}, {6, 0, 0, 0}, {{0, 0}}},
    };
    TAKE_STEPS(at, "blocks", steps);
}

/* M-107, three getters at a Memory of two blocks: task 2 before its elders, 0 with ticks and 1
 * suspended. Task 3 has both blocks and brings back the second, then the first: each goes to
 * the first getter. One times out, one is withdrawn, and a block is in again. */
static void case_getters(bench *at)
{
    static const step steps[] = {
        {{0, 0, 0, 0, 0, 0, 0}, {0, 0, 0, 0}, {{0, 0}}},
        {{10, 0, 3, 0, 0, 0, 0}, {0, 0, 0, 0}, {{0, 0}}},
        {{10, 0, 7, 0, 0, 2, 2}, {0, 0, 0, 0}, {{140, 7}}},
        {{9, 0, 4, 0, 0, 0, 0}, {0, 0, 0, 0}, {{0, 0}}},
        {{9, 0, 4, 0, 0, 0, 0}, {0, 0, 0, 0}, {{0, 0}}},
        {{9, 0, 3, 0, 0, 0, 0}, {0, 0, 0, 0}, {{0, 0}}},
        {{9, 0, 9, 1, 0, 0, 0}, {0, 0, 4, 0}, {{0, 0}}},
        {{1, 3, 1, 2, 2, 0, 7}, {0, 1, 4, 0}, {{38, 0}, {141, 1}}},
        {{1, 3, 1, 2, 2, 0, 7}, {0, 1, 4, 0}, {{38, 1}, {141, 0}, {480, 1}, {481, 1}}},
        {{2, 3, 0, 0, 0, 0, 0}, {0, 1, 1, 0}, {{38, 0}}},
        {{1, 0, 1, 2, 3, 3, 55}, {0, 0, 4, 0}, {{8, 3}, {12, 3}, {13, 2}, {14, 0}}},
        {{2, 3, 1, 0, 0, 0, 0}, {0, 1, 2, 0}, {{0, 0}}},
        {{1, 1, 1, 2, 1, 0, 1}, {0, 0, 4, 1}, {{232, 1}, {233, 2}, {22, 0}}},
        {{4, 3, 1, 0, 0, 0, 0}, {0, 1, 4, 0}, {{17, 1}}},
        {{2, 3, 2, 0, 0, 0, 0}, {0, 1, 3, 0}, {{0, 0}}},
        {{1, 2, 1, 2, 3, 9, 0}, {0, 0, 4, 0}, {{232, 3}, {233, 1}, {234, 2}}},
        {{1, 3, 1, 2, 2, 0, 0}, {0, 2, 4, 0}, {{232, 3}, {141, 0}}}, /* not now */
        {{1, 3, 1, 1, 1, 0, 2}, {0, 2, 4, 0}, {{232, 3}, {32, 2}, {141, 0}}}, /* FAIL, awaited */
        {{1, 3, 1, 1, 3, 7, 1}, {0, 1, 3, 0}, {{30, 1}, {31, 1}, {28, 0}, {38, 0}}},
        {{11, 0, 0, 0, 0, 0, 0}, {3, 0, 0, 0}, {{232, 1}, {141, 0}, {480, 1}, {481, 1}}},
        {{6, 2, 0, 0, 0, 0, 0}, {0, 1, 3, 0}, {{30, 0}}},
        {{7, 2, 0, 0, 0, 2, 0}, {0, 0, 4, 0}, {{0, 0}}},
        {{1, 3, 1, 1, 1, 0, 0}, {0, 1, 1, 0}, {{14, 0}, {15, 1}, {12, 0}, {232, 2}}}, /* block 0 */
        {{8, 0, 0, 0, 0, 0, 0}, {0, 0, 1, 0}, {{28, 1}, {12, 0}, {232, 2}, {141, 0}}},
        {{1, 0, 1, 2, 3, 1, 0}, {0, 0, 4, 1}, {{232, 2}, {233, 1}}},
        {{8, 0, 0, 0, 0, 0, 0}, {0, 0, 3, 0}, {{15, 3}, {14, 0}, {232, 2}, {233, 0}}}, /* TO */
        {{3, 2, 1, 0, 0, 0, 0}, {0, 1, 3, 0}, {{232, 0}, {16, 1}, {141, 0}, {481, 1}}},
        {{1, 2, 1, 1, 1, 0, 1}, {0, 1, 3, 0}, {{141, 1}, {480, 1}, {481, 0}, {30, 0}}},
        {{3, 2, 3, 0, 0, 0, 0}, {0, 1, 3, 0}, {{141, 1}, {480, 1}}}, /* what it took stays out */
        {{1, 2, 1, 2, 1, 0, 1}, {0, 1, 3, 0}, {{30, 1}, {141, 0}, {481, 1}}},
    };
    TAKE_STEPS(at, "getters at a Memory", steps);
}

/* M-104, a queue at a Semaphore that is hub 1, tasks 0 to 5 with priorities 5, 5, 9, 1,
 * 200 and 5: nobody ahead, an equal, two more urgent ones; one who goes in front; one
 * between, a suspended waiter ahead of it. And calls with nobody ahead though some wait:
 * NW, refusals, Suspend, Tick, Sleep, a request to another hub, one that is met. */
static void case_ahead(bench *at)
{
    static const step steps[] = {
        {{0, 0, 0, 0, 0, 0, 0}, {0, 0, 0, 0}, {{0, 0}}},
        {{10, 0, 3, 0, 0, 0, 0}, {0, 0, 0, 0}, {{0, 0}}},
        {{10, 0, 2, 0, 0, 4, 0}, {0, 0, 0, 0}, {{0, 0}}},
        {{9, 0, 5, 1, 0, 0, 0}, {0, 0, 1, 0}, {{0, 0}}},
        {{1, 0, 1, 2, 1, 0, 0}, {0, 0, 0, 0}, {{232, 1}}}, /* the first: nobody */
        {{9, 0, 5, 1, 0, 0, 0}, {0, 0, 2, 0}, {{0, 0}}},
        {{1, 1, 1, 2, 3, 2, 0}, {0, 0, 0, 1}, {{232, 1}, {233, 2}}},
        {{9, 0, 9, 1, 0, 0, 0}, {0, 0, 3, 0}, {{0, 0}}},
        {{1, 2, 1, 2, 2, 0, 0}, {0, 2, 3, 0}, {{232, 1}, {233, 2}, {234, 0}}}, /* NW */
        {{1, 2, 1, 2, 3, 9, 0}, {0, 0, 0, 2}, {{234, 3}}},
        {{9, 0, 1, 1, 0, 0, 0}, {0, 0, 4, 0}, {{0, 0}}},
        {{1, 3, 1, 2, 1, 0, 0}, {0, 0, 0, 0}, {{232, 4}, {233, 1}, {234, 2}, {235, 3}}},
        {{9, 0, 200, 1, 0, 0, 0}, {0, 0, 5, 0}, {{0, 0}}},
        {{1, 0, 1, 2, 1, 0, 0}, {4, 0, 0, 0}, {{0, 0}}}, /* it waits there, behind one */
        {{1, 4, 2, 2, 1, 0, 0}, {5, 0, 0, 0}, {{0, 0}}},
        {{1, 4, 1, 3, 1, 0, 0}, {6, 0, 0, 0}, {{0, 0}}},
        {{1, 4, 1, 2, 1, 7, 0}, {6, 0, 0, 0}, {{0, 0}}},
        {{4, 4, 0, 0, 0, 0, 0}, {0, 1, 5, 0}, {{9, 1}, {233, 1}}}, /* suspended, it stands there */
        {{9, 0, 5, 1, 0, 0, 0}, {0, 0, 6, 0}, {{0, 0}}},
        {{1, 5, 1, 2, 1, 0, 0}, {0, 0, 5, 3}, {{234, 2}, {235, 6}, {236, 3}}}, /* and counts */
        {{8, 0, 0, 0, 0, 0, 0}, {0, 0, 5, 0}, {{20, 1}, {235, 6}}},
        {{7, 4, 0, 0, 0, 1, 0}, {0, 0, 0, 0}, {{40, 4}}},
        {{8, 0, 0, 0, 0, 0, 0}, {0, 0, 2, 0}, {{233, 1}, {234, 6}, {235, 3}, {236, 0}}},
        {{1, 1, 0, 2, 1, 0, 0}, {0, 0, 5, 0}, {{216, 2}}}, /* the first at another hub */
        {{1, 4, 1, 1, 1, 0, 0}, {0, 1, 4, 0}, {{232, 1}, {233, 6}}}, /* met, and others wait */
        {{1, 3, 1, 2, 3, 1000000, 0}, {0, 0, 5, 0}, {{232, 4}, {233, 1}}},
    };
    TAKE_STEPS(at, "ahead", steps);
}

/* All 16 tasks come to one hub and have to wait: 0 to 15 ahead as equals, and nobody as
 * each is more urgent than those before it. For a Resource one owns it, so 14 at most. */
static void fill_hub(bench *at, uint32_t kind, uint32_t side, int equals)
{
    uint32_t table[WORDS_MOST] = {0}, limit = kind == 3 ? 0 : 1, comers = kind == 5 ? 15 : 16;
    uint32_t start = kind == 7 ? 1 : 0;

    ledger_begin(&at->book);
    enter_call(at, table, (uint32_t[8]){0}, 0);
    enter_call(at, table, (uint32_t[8]){10, 0, 2, 0, 0, 9, 9}, 0); /* nobody waits at hub 0 */
    enter_call(at, table, (uint32_t[8]){10, 0, kind, 0, 0, limit, start}, 0);
    enter_call(at, table, (uint32_t[8]){9, 0, 40, 1, 0, 0, 0}, 0);
    if (kind == 5 || kind == 7 || (side == 1 && kind != 3)) /* the lock, the block, the room */
        enter_call(at, table, (uint32_t[8]){1, 0, 1, side, 2, 0, 1}, 0);
    if (kind == 5)
        enter_call(at, table, (uint32_t[8]){7, 0, 0, 0, 0, 9, 0}, 0);
    for (uint32_t come = 0; come < comers; come++) {
        uint32_t task = kind == 5 ? come + 1 : come;
        if (task > 0)
            enter_call(at, table, (uint32_t[8]){9, 0, equals ? 40 : 40 - task, 1, 0, 0, 0}, 0);
        second_reply wanted = {0, 0, 0, equals ? come : 0};
        uint32_t call[8] = {1, task, 1, side, come % 2 == 0 ? 1 : 3, come % 2 == 0 ? 0 : 50, come};
        if (!same_reply(enter_call(at, table, call, 0), wanted))
            fail(at, call, "as many ahead as came before, or nobody where it is most urgent");
    }
    end_run(at, NULL, table);
}

static void case_ahead_15(bench *at)
{
    begin(at, "15 ahead", 0);
    for (uint32_t kind = 1; kind <= 7; kind++)
        for (uint32_t side = kind < 5 ? 1 : 2; side <= 2; side++)
            for (uint32_t edition = EDITION_2; edition >= EDITION_1; edition--) {
                set_edition(at, edition);
                fill_hub(at, kind, side, 1);
                fill_hub(at, kind, side, 0);
            }
}

/* A low task holds the fan lock, a middle one is ready, an urgent one waits for the lock: the
 * low one runs before the middle one until it gives the lock back, and then loses its place. */
static void case_inherit(bench *at)
{
    static const step steps[] = {
        {{0, 0, 0, 0, 0, 0, 0}, {0, 0, 0, 0}, {{0, 0}}},
        {{10, 0, 5, 0, 0, 1, 0}, {0, 0, 0, 0}, {{0, 0}}},
        {{9, 0, 9, 1, 0, 0, 0}, {0, 0, 1, 0}, {{0, 0}}},
        {{1, 0, 0, 2, 1, 0, 0}, {0, 1, 1, 0}, {{137, 1}}},
        {{9, 0, 5, 1, 0, 0, 0}, {0, 0, 2, 0}, {{200, 2}, {201, 1}}},
        {{9, 0, 1, 1, 0, 0, 0}, {0, 0, 3, 0}, {{200, 3}, {201, 2}, {202, 1}}},
        {{1, 2, 0, 2, 1, 0, 0}, {0, 0, 1, 0}, {{200, 1}, {201, 2}, {202, 0}, {216, 3}}},
        {{6, 1, 0, 0, 0, 0, 0}, {4, 0, 0, 0}, {{0, 0}}},
        {{6, 0, 0, 0, 0, 0, 0}, {0, 1, 1, 0}, {{10, 9}, {200, 1}, {201, 2}}},
        {{9, 0, 1, 1, 0, 0, 0}, {0, 0, 1, 0}, {{200, 1}, {201, 4}, {202, 2}}}, /* an equal */
        {{9, 0, 0, 1, 0, 0, 0}, {0, 0, 5, 0}, {{200, 5}, {201, 1}, {202, 4}, {203, 2}}},
        {{1, 4, 0, 2, 2, 0, 0}, {0, 2, 5, 0}, {{200, 5}, {201, 1}, {137, 1}}}, /* NW: no heir */
        {{7, 4, 0, 0, 0, 9, 0}, {0, 0, 1, 0}, {{200, 1}, {201, 4}, {202, 2}}},
        {{1, 0, 0, 1, 1, 0, 0}, {0, 1, 4, 0}, {{137, 3}, {200, 4}, {201, 3}, {202, 2}}},
        {{1, 3, 0, 1, 1, 0, 0}, {0, 2, 4, 0}, {{137, 3}, {203, 1}}},
    };
    TAKE_STEPS(at, "inherited by an owner", steps);
}

/* Task 0 owns lock 0 and waits at a Semaphore behind task 1; task 2 owns lock 1 and waits for
 * lock 0; task 3 waits for lock 1, and times out. The Semaphore's list turns, and back. */
static void case_inherit_3(bench *at)
{
    static const step steps[] = {
        {{0, 0, 0, 0, 0, 0, 0}, {0, 0, 0, 0}, {{0, 0}}},
        {{10, 0, 5, 0, 0, 1, 0}, {0, 0, 0, 0}, {{0, 0}}},
        {{10, 0, 5, 0, 0, 1, 0}, {0, 0, 0, 0}, {{0, 0}}},
        {{10, 0, 2, 0, 0, 1, 0}, {0, 0, 0, 0}, {{0, 0}}},
        {{9, 0, 8, 1, 0, 0, 0}, {0, 0, 1, 0}, {{0, 0}}},
        {{1, 0, 0, 2, 1, 0, 0}, {0, 1, 1, 0}, {{137, 1}}},
        {{1, 0, 2, 2, 1, 0, 0}, {0, 0, 0, 0}, {{248, 1}}},
        {{9, 0, 5, 1, 0, 0, 0}, {0, 0, 2, 0}, {{0, 0}}},
        {{1, 1, 2, 2, 1, 0, 0}, {0, 0, 0, 0}, {{248, 2}, {249, 1}}},
        {{9, 0, 7, 1, 0, 0, 0}, {0, 0, 3, 0}, {{0, 0}}},
        {{1, 2, 1, 2, 1, 0, 0}, {0, 1, 3, 0}, {{141, 3}}},
        {{1, 2, 0, 2, 1, 0, 0}, {0, 0, 0, 0}, {{216, 3}, {248, 2}, {249, 1}}},
        {{9, 0, 1, 1, 0, 0, 0}, {0, 0, 4, 0}, {{0, 0}}},
        {{1, 3, 1, 2, 3, 1, 0}, {0, 0, 0, 0}, {{232, 4}, {248, 1}, {249, 2}}},
        {{8, 0, 0, 0, 0, 0, 0}, {0, 0, 4, 0}, {{232, 0}, {248, 2}, {249, 1}, {39, 3}}},
        {{1, 3, 1, 2, 1, 0, 0}, {0, 0, 0, 0}, {{232, 4}, {248, 1}, {249, 2}}},
        {{9, 0, 6, 1, 0, 0, 0}, {0, 0, 5, 0}, {{0, 0}}},
        {{1, 4, 2, 2, 1, 0, 0}, {0, 0, 0, 2}, {{248, 1}, {249, 2}, {250, 5}}}, /* 2 ahead */
        {{9, 0, 0, 1, 0, 0, 0}, {0, 0, 6, 0}, {{0, 0}}},
        {{3, 5, 2, 0, 0, 0, 0}, {0, 1, 6, 0}, {{141, 4}, {216, 0}, {248, 2}, {249, 5}}},
        {{4, 5, 3, 0, 0, 0, 0}, {0, 1, 6, 0}, {{250, 1}, {200, 6}, {201, 4}}},
    };
    TAKE_STEPS(at, "inherited through others", steps);
}

/* Two owners, whose waiters time out in one Tick: B stood before A, and they are put back in
 * task number order, behind those who timed out. Then a ring of two. */
static void case_put_back(bench *at)
{
    static const step steps[] = {
        {{0, 0, 0, 0, 0, 0, 0}, {0, 0, 0, 0}, {{0, 0}}},
        {{10, 0, 5, 0, 0, 1, 0}, {0, 0, 0, 0}, {{0, 0}}},
        {{10, 0, 5, 0, 0, 1, 0}, {0, 0, 0, 0}, {{0, 0}}},
        {{9, 0, 9, 1, 0, 0, 0}, {0, 0, 1, 0}, {{0, 0}}},
        {{1, 0, 0, 2, 1, 0, 0}, {0, 1, 1, 0}, {{137, 1}}},
        {{9, 0, 9, 1, 0, 0, 0}, {0, 0, 1, 0}, {{0, 0}}},
        {{6, 0, 0, 0, 0, 0, 0}, {0, 1, 2, 0}, {{200, 2}, {201, 1}}},
        {{1, 1, 1, 2, 1, 0, 0}, {0, 1, 2, 0}, {{141, 2}}},
        {{9, 0, 3, 1, 0, 0, 0}, {0, 0, 3, 0}, {{0, 0}}},
        {{1, 2, 0, 2, 3, 2, 0}, {0, 0, 1, 0}, {{200, 1}, {201, 2}}},
        {{9, 0, 2, 1, 0, 0, 0}, {0, 0, 4, 0}, {{0, 0}}},
        {{1, 3, 1, 2, 3, 2, 0}, {0, 0, 2, 0}, {{200, 2}, {201, 1}}},
        {{8, 0, 0, 0, 0, 0, 0}, {0, 0, 2, 0}, {{200, 2}, {201, 1}}},
        {{8, 0, 0, 0, 0, 0, 0}, {0, 0, 4, 0}, {{200, 4}, {201, 3}, {202, 1}, {203, 2}}},
        {{7, 3, 0, 0, 0, 9, 0}, {0, 0, 3, 0}, {{0, 0}}},
        {{7, 2, 0, 0, 0, 9, 0}, {0, 0, 1, 0}, {{200, 1}, {201, 2}}},
        {{1, 0, 1, 2, 1, 0, 0}, {0, 0, 2, 0}, {{232, 1}}},        /* A waits for B */
        {{1, 1, 0, 2, 3, 7, 0}, {0, 0, 0, 0}, {{216, 2}, {200, 0}}}, /* and B for A */
        {{9, 0, 4, 1, 0, 0, 0}, {0, 0, 5, 0}, {{0, 0}}},
        {{1, 4, 1, 2, 1, 0, 0}, {0, 0, 0, 0}, {{232, 5}, {233, 1}}}, /* before A, who rises too */
    };
    TAKE_STEPS(at, "put back in number order", steps);
}

/* A call that has to be accepted, and what it says. */
static void chain_call(bench *at, uint32_t *table, const uint32_t *call, uint32_t answer,
                       uint32_t next)
{
    if (!same_reply(enter_call(at, table, call, 0), (second_reply){0, answer, next, 0}))
        fail(at, call, "the chain: another reply was expected");
}

/* Chains of 2 to 15 tasks, and a task besides that is more urgent than all of them but the
 * last: when that waits, the head runs. With 16 there is no task besides, whatever its list. */
static void case_chains(bench *at)
{
    for (uint32_t i = 0; i < 2 * 14; i++) {
        uint32_t table[WORDS_MOST] = {0}, tasks = 2 + i / 2;

        set_edition(at, EDITION_1 + i % 2);
        at->part = "chains of 2 to 15";
        at->seed = tasks;
        ledger_begin(&at->book);
        chain_call(at, table, (uint32_t[8]){BLANK}, 0, 0);
        for (uint32_t lock = 0; lock < tasks; lock++)
            chain_call(at, table, (uint32_t[8]){ADD_HUB, 0, RESOURCE, 0, 0, 1}, 0, 0);
        for (uint32_t task = 0; task + 1 < tasks; task++) {
            chain_call(at, table, (uint32_t[8]){ADD_TASK, 0, 200 - task, 1}, 0, task + 1);
            chain_call(at, table, (uint32_t[8]){HUB_REQUEST, task, task, GET, W}, OK, task + 1);
            if (task > 0)
                chain_call(at, table, (uint32_t[8]){HUB_REQUEST, task, task - 1, GET, W}, 0, 1);
        }
        chain_call(at, table, (uint32_t[8]){ADD_TASK, 0, 100, 1}, 0, tasks);
        chain_call(at, table, (uint32_t[8]){ADD_TASK, 0, 50, 1}, 0, tasks + 1);
        chain_call(at, table, (uint32_t[8]){HUB_REQUEST, tasks, tasks - 2, GET, W}, 0, 1);
        chain_call(at, table, (uint32_t[8]){HUB_REQUEST, 0, 0, PUT, W}, OK,
                   tasks == 2 ? tasks + 1 : 2);
        end_run(at, NULL, table);
    }
}

static void case_ticks(bench *at)
{
    static const step steps[] = {
        {{0, 0, 0, 0, 0, 0, 0}, {0, 0, 0, 0}, {{0, 0}}},
        {{9, 0, 1, 1, 0, 0, 0}, {0, 0, 1, 0}, {{0, 0}}},
        {{9, 0, 1, 1, 0, 0, 0}, {0, 0, 1, 0}, {{0, 0}}},
        {{9, 0, 1, 1, 0, 0, 0}, {0, 0, 1, 0}, {{0, 0}}},
        {{10, 0, 3, 0, 0, 0, 0}, {0, 0, 1, 0}, {{0, 0}}},
        {{1, 0, 0, 1, 3, 0, 8}, {6, 0, 0, 0}, {{0, 0}}},
        {{1, 0, 0, 1, 3, 1000001, 8}, {6, 0, 0, 0}, {{0, 0}}},
        {{1, 0, 0, 1, 3, 1000000, 8}, {0, 0, 2, 0}, {{12, 1000000}, {14, 8}}},
        {{7, 1, 0, 0, 0, 1, 0}, {0, 0, 3, 0}, {{16, 4}, {20, 1}}},
        {{4, 2, 1, 0, 0, 0, 0}, {0, 1, 3, 0}, {{17, 1}}},
        {{8, 0, 0, 0, 0, 0, 0}, {0, 0, 3, 0}, {{12, 999999}, {16, 2}, {17, 1}, {23, 3}}},
        {{5, 2, 1, 0, 0, 0, 0}, {0, 1, 3, 0}, {{17, 0}, {200, 3}, {201, 2}}},
        {{7, 2, 0, 0, 0, 1, 0}, {0, 0, 2, 0}, {{0, 0}}},
        {{7, 1, 0, 0, 0, 1, 0}, {0, 0, 0, 0}, {{0, 0}}},
        {{8, 0, 0, 0, 0, 0, 0}, {0, 0, 2, 0}, {{200, 2}, {201, 3}}}, /* in number order */
        {{7, 1, 0, 0, 0, 5, 0}, {0, 0, 3, 0}, {{0, 0}}},
        {{3, 2, 1, 0, 0, 0, 0}, {0, 1, 3, 0}, {{16, 1}, {20, 0}, {18, 1}}}, /* Stop of a sleeper */
        {{3, 2, 0, 0, 0, 0, 0}, {0, 1, 3, 0}, {{8, 1}, {14, 0}, {216, 0}}}, /* and of a putter */
        {{1, 2, 0, 2, 2, 0, 0}, {0, 2, 3, 0}, {{0, 0}}},
    };
    TAKE_STEPS(at, "ticks", steps);
}

static void case_caller_as_target(bench *at)
{
    static const step steps[] = {
        {{0, 0, 0, 0, 0, 0, 0}, {0, 0, 0, 0}, {{0, 0}}},
        {{9, 0, 0, 1, 0, 0, 0}, {0, 0, 1, 0}, {{0, 0}}},
        {{2, 0, 0, 0, 0, 0, 0}, {0, 2, 1, 0}, {{15, 2}}},
        {{3, 0, 0, 0, 0, 0, 0}, {0, 2, 1, 0}, {{8, 2}}},
        {{4, 0, 0, 0, 0, 0, 0}, {0, 2, 1, 0}, {{9, 0}}},
        {{5, 0, 0, 0, 0, 0, 0}, {0, 2, 1, 0}, {{0, 0}}},
        {{9, 0, 0, 2, 0, 0, 0}, {6, 0, 0, 0}, {{0, 0}}},
    };
    TAKE_STEPS(at, "caller as target", steps);
}

/* The 16th and 17th task and hub. */
static void fill_table(bench *at)
{
    uint32_t table[WORDS_MOST] = {0}, task[8] = {ADD_TASK, 0, 255, 1, 0, 0, 0};
    uint32_t hub[8] = {ADD_HUB, 0, PORT, 0, 0, 0, 0}, blank[8] = {0};

    begin(at, "full table", 0);
    check_call(at, table, blank);
    for (int i = 1; i <= 17; i++)
        if (check_call(at, table, task).refusal != (i == 17 ? 7u : 0u) ||
            check_call(at, table, hub).refusal != (i == 17 ? 7u : 0u))
            fail(at, task, "16 fit, the 17th is refused with 7");
    task[C_TARGET] = 256;
    hub[C_TARGET] = 7;
    if (check_call(at, table, task).refusal != 6 || check_call(at, table, hub).refusal != 6)
        fail(at, task, "6 before 7");
}

static void case_full(bench *at)
{
    for (uint32_t edition = EDITION_2; edition >= EDITION_1; edition--) {
        set_edition(at, edition);
        fill_table(at);
    }
}

/* M-105: pairs in a FIFO that holds two, in a Port and on a Board, with a putter that waits
 * at each of the first two; a low word 0 under a high one; an Event, which keeps none; the
 * caller's own pair, which a Start clears. */
static void case_pairs(bench *at)
{
    static const step steps[] = {
        {{0, 9, 9, 9, 9, 9, 9, 9}, {0, 0, 0, 0}, {{4, 152}, {5, 216}, {6, 232}, {7, 488}}},
        {{10, 0, 4, 0, 0, 2, 0, 9}, {0, 0, 0, 0}, {{152, 4}, {153, 0}, {154, 2}, {155, 0}}},
        {{10, 0, 3, 0, 0, 0, 0, MAX}, {0, 0, 0, 0}, {{0, 0}}},
        {{10, 0, 6, 0, 0, 1, 0, 1}, {0, 0, 0, 0}, {{0, 0}}},
        {{10, 0, 1, 0, 0, 1, 0, 0}, {0, 0, 0, 0}, {{0, 0}}},
        {{9, 0, 5, 1, 0, 0, 0, 7}, {0, 0, 1, 0}, {{8, 2}, {10, 5}, {15, 0}, {216, 1}}},
        {{1, 0, 0, 1, 2, 0, 11, 21}, {0, 1, 1, 0}, {{488, 11}, {489, 21}, {14, 0}, {16, 1}}},
        {{1, 0, 0, 1, 2, 0, 0, 22}, {0, 1, 1, 0}, {{490, 0}, {491, 22}, {153, 2}, {15, 0}}},
        {{9, 0, 3, 1, 0, 0, 0, 0}, {0, 0, 2, 0}, {{17, 2}, {19, 3}, {216, 2}, {217, 1}}},
        {{1, 1, 0, 1, 1, 0, 13, 23}, {0, 0, 1, 0}, {{17, 3}, {23, 13}, {24, 23}, {25, 0}}},
        {{1, 0, 0, 2, 2, 0, 99, 98}, {0, 1, 2, 0}, {{14, 11}, {15, 21}, {16, 1}, {490, 13}}},
        {{11, 0, 0, 0, 0, 0, 0, 0}, {3, 0, 0, 0}, {{488, 0}, {489, 22}, {491, 23}, {153, 2}}},
        {{11, 0, 0, 0, 0, 0, 0, 5}, {3, 0, 0, 0}, {{23, 0}, {24, 0}, {25, 1}, {232, 0}}},
        {{1, 1, 0, 2, 2, 0, 0, 0}, {0, 1, 2, 0}, {{23, 0}, {24, 22}, {25, 1}, {153, 1}}},
        {{2, 1, 0, 0, 0, 0, 0, 3}, {0, 2, 2, 0}, {{23, 0}, {24, 0}, {25, 2}}},
        {{1, 1, 0, 2, 2, 0, 0, 0}, {0, 1, 2, 0}, {{23, 13}, {24, 23}, {488, 0}, {489, 0}}},
        {{1, 1, 1, 1, 3, 4, 7, MAX}, {0, 0, 1, 0}, {{21, 4}, {23, 7}, {24, MAX}, {25, 0}}},
        {{1, 0, 1, 2, 2, 0, 0, 0}, {0, 1, 2, 0}, {{14, 7}, {15, MAX}, {23, 0}, {24, 0}}},
        {{1, 1, 1, 2, 1, 0, 5, 6}, {0, 0, 1, 0}, {{17, 3}, {23, 0}, {24, 0}, {248, 2}}},
        {{1, 0, 1, 1, 2, 0, 8, 9}, {0, 1, 2, 0}, {{23, 8}, {24, 9}, {14, 0}, {15, 0}}},
        {{1, 1, 2, 1, 2, 0, 1, 2}, {0, 1, 2, 0}, {{520, 1}, {521, 2}, {522, 0}, {161, 1}}},
        {{1, 1, 2, 2, 2, 0, 0, 0}, {0, 1, 2, 0}, {{23, 1}, {24, 2}, {520, 1}, {521, 2}}},
        {{1, 1, 2, 3, 2, 0, 3, 4}, {0, 1, 2, 0}, {{520, 0}, {521, 0}, {161, 0}, {24, 0}}},
        {{1, 1, 2, 1, 2, 0, 0, 5}, {0, 1, 2, 0}, {{520, 0}, {521, 5}, {161, 1}, {24, 0}}},
        {{1, 1, 3, 1, 2, 0, 5, 5}, {0, 1, 2, 0}, {{165, 1}, {536, 0}, {537, 0}, {24, 0}}},
        {{1, 1, 3, 1, 1, 0, 5, 5}, {0, 0, 1, 0}, {{17, 3}, {23, 0}, {24, 0}, {280, 2}}},
        {{3, 0, 1, 0, 0, 0, 0, 9}, {0, 1, 1, 0}, {{17, 1}, {19, 3}, {24, 0}, {280, 0}}},
    };
    set_edition(at, EDITION_2);
    take_steps_in(at, "pairs", steps, sizeof steps / sizeof *steps, 0);
    set_edition(at, EDITION_1);
}

/* M-105 on edition 1: a high word above 0 is 6 for every kind and side, after 5; every
 * other service ignores it. */
static void case_high_on_1(bench *at)
{
    static const step steps[] = {
        {{0, 0, 0, 0, 0, 0, 0, MAX}, {0, 0, 0, 0}, {{3, 8}, {4, 136}, {7, 472}}},
        {{9, 0, 5, 1, 0, 0, 0, 1}, {0, 0, 1, 0}, {{8, 2}, {15, 0}, {16, 0}}},
        {{10, 0, 1, 0, 0, 1, 0, 1}, {0, 0, 1, 0}, {{136, 1}}},
        {{10, 0, 2, 0, 0, 9, 4, 1}, {0, 0, 1, 0}, {{140, 2}, {141, 4}}},
        {{10, 0, 3, 0, 0, 0, 0, 1}, {0, 0, 1, 0}, {{144, 3}}},
        {{10, 0, 4, 0, 0, 8, 0, 1}, {0, 0, 1, 0}, {{148, 4}}},
        {{10, 0, 5, 0, 0, 1, 0, 1}, {0, 0, 1, 0}, {{152, 5}}},
        {{10, 0, 6, 0, 0, 1, 0, 1}, {0, 0, 1, 0}, {{156, 6}}},
        {{10, 0, 7, 0, 0, 2, 2, 1}, {0, 0, 1, 0}, {{160, 7}, {161, 2}, {162, 2}, {163, 2}}},
        {{11, 0, 0, 0, 0, 0, 0, 1}, {3, 0, 0, 0}, {{0, 0}}},
        {{1, 1, 0, 1, 2, 0, 0, 1}, {4, 0, 0, 0}, {{0, 0}}},
        {{1, 0, 7, 1, 2, 0, 0, 1}, {5, 0, 0, 0}, {{0, 0}}},
        {{1, 0, 0, 1, 2, 0, 0, 1}, {6, 0, 0, 0}, {{137, 0}}},
        {{1, 0, 0, 2, 2, 0, 0, 1}, {6, 0, 0, 0}, {{15, 0}}},
        {{1, 0, 1, 1, 2, 0, 0, 1}, {6, 0, 0, 0}, {{141, 4}}},
        {{1, 0, 1, 2, 1, 0, 0, MAX}, {6, 0, 0, 0}, {{141, 4}}},
        {{1, 0, 2, 1, 2, 0, 0, 1}, {6, 0, 0, 0}, {{0, 0}}},
        {{1, 0, 2, 2, 3, 5, 0, 1}, {6, 0, 0, 0}, {{8, 2}}},
        {{1, 0, 3, 1, 2, 0, 77, 1}, {6, 0, 0, 0}, {{149, 0}, {496, 0}}},
        {{1, 0, 3, 2, 2, 0, 0, 1}, {6, 0, 0, 0}, {{0, 0}}},
        {{1, 0, 4, 1, 2, 0, 0, 1}, {6, 0, 0, 0}, {{0, 0}}}, /* before the hub table's FAIL */
        {{1, 0, 4, 2, 2, 0, 0, 1}, {6, 0, 0, 0}, {{153, 0}}},
        {{1, 0, 5, 1, 2, 0, 0, 1}, {6, 0, 0, 0}, {{157, 0}}},
        {{1, 0, 5, 2, 2, 0, 0, 1}, {6, 0, 0, 0}, {{0, 0}}},
        {{1, 0, 5, 3, 2, 0, 0, 1}, {6, 0, 0, 0}, {{0, 0}}},
        {{1, 0, 6, 2, 2, 0, 0, 0}, {0, 1, 1, 0}, {{161, 1}, {520, 1}}},
        {{1, 0, 6, 1, 2, 0, 0, 1}, {6, 0, 0, 0}, {{161, 1}, {520, 1}}}, /* before its FAIL, too */
        {{1, 0, 6, 2, 2, 0, 0, 1}, {6, 0, 0, 0}, {{161, 1}, {521, 0}}},
        {{1, 0, 6, 3, 2, 0, 0, 0}, {6, 0, 0, 0}, {{0, 0}}},
        {{1, 0, 6, 1, 2, 0, 0, 0}, {0, 1, 1, 0}, {{161, 2}, {520, 0}}},
        {{1, 0, 3, 1, 2, 0, 77, 0}, {0, 1, 1, 0}, {{149, 1}, {496, 77}}},
        {{6, 0, 0, 0, 0, 0, 0, 1}, {0, 1, 1, 0}, {{0, 0}}},
        {{5, 0, 0, 0, 0, 0, 0, 1}, {0, 2, 1, 0}, {{0, 0}}},
        {{8, 0, 0, 0, 0, 0, 0, 1}, {0, 0, 1, 0}, {{0, 0}}},
        {{7, 0, 0, 0, 0, 3, 0, 1}, {0, 0, 0, 0}, {{12, 3}}},
    };
    set_edition(at, EDITION_1);
    take_steps_in(at, "high words on edition 1", steps, sizeof steps / sizeof *steps, 0);
}

/* The next call of the case, which goes on in the table. */
static void go_on(bench *at, uint32_t *table, const uint32_t *call, second_reply wanted)
{
    if (!same_reply(enter_call(at, table, call, 0), wanted))
        fail(at, call, "the case expects another reply");
}

static void move_on(bench *at, uint32_t *table, uint32_t refusal)
{
    uint32_t moved[WORDS_MOST];
    const char *wrong;

    if (move_table(at, table, moved) != refusal)
        fail(at, NULL, "the case expects another refusal of the move");
    if (refusal != ACCEPTED)
        return;
    if ((wrong = ledger_move(&at->book, table, moved)) != NULL)
        fail(at, NULL, wrong);
    memcpy(table, moved, sizeof moved);
    set_edition(at, other_form(at)->edition);
}

static void words_are(bench *at, const uint32_t *table, const uint32_t (*words)[2], size_t count)
{
    for (size_t i = 0; i < count; i++)
        if (table[words[i][0]] != words[i][1])
            fail(at, NULL, "the case expects another word after the move");
}

/* M-105, a run that goes up and down: a FIFO of 1 holds 77, task 1 waits to put 78, task 2
 * sleeps. Up; a Port's putter brings a high word, so down is 9 until it is taken and
 * cleared; the FIFO's requests go on in both. */
static void case_moves(bench *at)
{
    static const uint32_t up[][2] = {
        {0, 2},   {1, 3},   {2, 2},   {3, 8},  {4, 152}, {7, 488}, {8, 2},    {10, 5},  {16, 1},
        {17, 3},  {19, 4},  {20, 1},  {22, 1}, {23, 78}, {24, 0},  {25, 0},   {26, 4},  {28, 3},
        {30, 9},  {152, 4}, {153, 1}, {154, 1}, {156, 3}, {216, 1}, {217, 0}, {232, 2}, {233, 0},
        {488, 77}, {489, 0}, {490, 0}, {504, 0},
    };
    static const uint32_t down[][2] = {
        {0, 1},   {1, 3},  {2, 2},   {4, 136}, {7, 472}, {8, 2},   {14, 77}, {15, 1},  {16, 2},
        {22, 0},  {23, 1}, {24, 4},  {28, 9},  {136, 4}, {137, 1}, {138, 1}, {200, 2}, {201, 1},
        {216, 0}, {472, 78}, {473, 0},
    };
    uint32_t table[WORDS_MOST] = {0};

    begin(at, "moves in a run", 0);
    ledger_begin(&at->book);
    set_edition(at, EDITION_1);
    go_on(at, table, (uint32_t[8]){0}, (second_reply){0, 0, 0, 0});
    go_on(at, table, (uint32_t[8]){10, 0, 4, 0, 0, 1, 0}, (second_reply){0, 0, 0, 0});
    go_on(at, table, (uint32_t[8]){10, 0, 3, 0, 0, 0, 0}, (second_reply){0, 0, 0, 0});
    go_on(at, table, (uint32_t[8]){9, 0, 5, 1, 0, 0, 0}, (second_reply){0, 0, 1, 0});
    go_on(at, table, (uint32_t[8]){9, 0, 4, 1, 0, 0, 0}, (second_reply){0, 0, 2, 0});
    go_on(at, table, (uint32_t[8]){9, 0, 3, 1, 0, 0, 0}, (second_reply){0, 0, 3, 0});
    go_on(at, table, (uint32_t[8]){7, 2, 0, 0, 0, 9, 0}, (second_reply){0, 0, 2, 0});
    go_on(at, table, (uint32_t[8]){1, 1, 0, 1, 2, 0, 77}, (second_reply){0, 1, 2, 0});
    go_on(at, table, (uint32_t[8]){1, 1, 0, 1, 1, 0, 78}, (second_reply){0, 0, 1, 0});
    go_on(at, table, (uint32_t[8]){6, 0, 0, 0, 0, 0, 0}, (second_reply){0, 1, 1, 0});
    move_on(at, table, 0);
    words_are(at, table, up, sizeof up / sizeof *up);
    go_on(at, table, (uint32_t[8]){1, 0, 0, 2, 2, 0, 0}, (second_reply){0, 1, 2, 0});
    move_on(at, table, 0);
    words_are(at, table, down, sizeof down / sizeof *down);
    move_on(at, table, 0);
    go_on(at, table, (uint32_t[8]){1, 1, 1, 1, 1, 0, 5, 6}, (second_reply){0, 0, 1, 0});
    move_on(at, table, 9); /* its high word waits with it */
    go_on(at, table, (uint32_t[8]){1, 0, 1, 2, 2, 0, 0}, (second_reply){0, 1, 2, 0});
    move_on(at, table, 9); /* and is in the getter's record then */
    go_on(at, table, (uint32_t[8]){1, 1, 0, 1, 3, 3, 0, 4}, (second_reply){0, 0, 1, 0});
    move_on(at, table, 9);
    go_on(at, table, (uint32_t[8]){6, 0, 0, 0, 0, 0, 0}, (second_reply){0, 1, 1, 0});
    move_on(at, table, 9); /* the FIFO's putter, alone */
    go_on(at, table, (uint32_t[8]){1, 0, 0, 2, 2, 0, 0}, (second_reply){0, 1, 2, 0});
    move_on(at, table, 9); /* in the FIFO now */
    go_on(at, table, (uint32_t[8]){1, 1, 0, 2, 2, 0, 0}, (second_reply){0, 1, 2, 0});
    move_on(at, table, 9); /* received: low 0, high 4 */
    go_on(at, table, (uint32_t[8]){6, 1, 0, 0, 0, 0, 0}, (second_reply){0, 1, 2, 0});
    move_on(at, table, 0);
    go_on(at, table, (uint32_t[8]){1, 1, 0, 2, 2, 0, 0}, (second_reply){0, 2, 2, 0});
    end_run(at, NULL, table);
    set_edition(at, EDITION_1);
}

/* M-107 on edition 2: the number is the whole message, so with a high word no block's, in
 * every mode and while a getter waits; moved up with a block out, and down again. */
static void case_high_blocks(bench *at)
{
    static const uint32_t up[][2] = {
        {152, 7}, {153, 1}, {154, 2}, {155, 2}, {488, 1}, {489, 0}, {490, 0}, {491, 0}, {14, 0},
    };
    static const uint32_t down[][2] = {{136, 7}, {137, 1}, {138, 2}, {139, 2}, {472, 1}, {473, 0}};
    uint32_t table[WORDS_MOST] = {0};

    begin(at, "blocks moved", 0);
    ledger_begin(&at->book);
    set_edition(at, EDITION_1);
    go_on(at, table, (uint32_t[8]){0}, (second_reply){0, 0, 0, 0});
    go_on(at, table, (uint32_t[8]){10, 0, 7, 0, 0, 2, 2, MAX}, (second_reply){0, 0, 0, 0});
    go_on(at, table, (uint32_t[8]){9, 0, 5, 1, 0, 0, 0}, (second_reply){0, 0, 1, 0});
    go_on(at, table, (uint32_t[8]){1, 0, 0, 2, 2, 0, 0}, (second_reply){0, 1, 1, 0});
    move_on(at, table, 0);
    words_are(at, table, up, sizeof up / sizeof *up);
    go_on(at, table, (uint32_t[8]){1, 0, 0, 1, 1, 0, 0, 1}, (second_reply){0, 2, 1, 0});
    go_on(at, table, (uint32_t[8]){1, 0, 0, 1, 2, 0, 0, MAX}, (second_reply){0, 2, 1, 0});
    go_on(at, table, (uint32_t[8]){1, 0, 0, 1, 3, 2, 1, 1}, (second_reply){0, 2, 1, 0});
    words_are(at, table, up, sizeof up / sizeof *up);
    go_on(at, table, (uint32_t[8]){1, 0, 0, 2, 2, 0, 0, 5}, (second_reply){0, 1, 1, 0});
    words_are(at, table, (const uint32_t[][2]){{14, 1}, {15, 0}, {153, 0}, {490, 1}, {491, 0}}, 5);
    move_on(at, table, 0); /* a number received has no high word */
    move_on(at, table, 0);
    go_on(at, table, (uint32_t[8]){9, 0, 3, 1, 0, 0, 0}, (second_reply){0, 0, 2, 0});
    go_on(at, table, (uint32_t[8]){1, 1, 0, 2, 1, 0, 1, 1}, (second_reply){0, 0, 1, 0});
    go_on(at, table, (uint32_t[8]){1, 0, 0, 1, 1, 0, 1, 1}, (second_reply){0, 2, 1, 0});
    move_on(at, table, 0);
    move_on(at, table, 0);
    go_on(at, table, (uint32_t[8]){1, 0, 0, 1, 1, 0, 1, 0}, (second_reply){0, 1, 2, 0});
    words_are(at, table, (const uint32_t[][2]){{23, 1}, {24, 0}, {153, 0}, {490, 1}, {14, 0}}, 5);
    go_on(at, table, (uint32_t[8]){1, 1, 0, 1, 2, 0, 1, 0}, (second_reply){0, 1, 2, 0});
    move_on(at, table, 0);
    words_are(at, table, down, sizeof down / sizeof *down);
    end_run(at, NULL, table);
    set_edition(at, EDITION_1);
}

enum { LENGTH_ROUNDS = 12 }; /* every mutant pays for them; enough for the rows */

/* The order of a move's refusals, every pair of lengths around both sizes. */
static void case_move_lengths(bench *at)
{
    static const size_t lengths[] = {0, 1, 599, 600, 601, 743, 744, 745};
    static const size_t byte_lengths[] = {0,    1,    600,  744,  2396, 2397, 2399, 2400, 2401,
                                          2402, 2404, 2972, 2975, 2976, 2977, 2978, 2980};
    uint32_t table[WORDS_MOST] = {0}, moved[WORDS_MOST], held[TO_WORDS] = {0};

    for (uint32_t edition = EDITION_2; edition >= EDITION_1; edition--) {
        begin(at, "lengths of moves", edition);
        set_edition(at, edition);
        for (int round = 0; round < LENGTH_ROUNDS; round++) {
            memset(table, 0, sizeof table);
            if (round % 3 == 0)
                gen_damaged(&at->random, edition, gen_below(&at->random, 100), table);
            else
                gen_table(&at->random, edition, table);
            for (size_t i = 0; i < 8; i++)
                for (size_t j = 0; j < 8; j++)
                    check_move(at, table, lengths[i], lengths[j], moved);
            for (size_t i = 0; i < sizeof byte_lengths / sizeof *byte_lengths; i++)
                for (size_t j = 0; j < sizeof byte_lengths / sizeof *byte_lengths; j++) {
                    size_t of = byte_lengths[i], to = byte_lengths[j];
                    if (of == bytes_of(at) && to == 4 * other_form(at)->words)
                        continue;
                    check_move_bytes(at, table, of, to, 1, held, held);
                    cover_move_bytes(&at->seen, of, to);
                }
        }
    }
}

/* Another length of the table: 1 whatever the room, and nothing written. */
static void listing_length(bench *at, const uint32_t *table, size_t words, const uint8_t *bytes,
                           size_t byte_length)
{
    uint8_t held[TEXT_BYTES], text[TEXT_BYTES];
    size_t room = gen_chance(&at->other, 50) ? 0 : LISTING_MOST;

    hold(at, held);
    memcpy(text, held, sizeof text);
    second_listing_reply reply = second_listing(table, words, text, room);
    second_listing_reply octets = second_listing_bytes(bytes, byte_length, text, room);
    if (reply.refusal != 1 || reply.length != 0 || octets.refusal != 1 || octets.length != 0)
        fail(at, NULL, "the listing: another length is refusal 1");
    if (memcmp(text, held, sizeof text) != 0)
        fail(at, NULL, "a refused listing was written");
    cover_listing(&at->seen, table, 0, room, reply);
    cover_listing_byte_length(&at->seen);
}

/* Any other length is refused for every service, Blank and the summary too, whatever
 * edition the contents say. */
static void refuse_lengths(bench *at)
{
    static const size_t lengths[] = {0, 1, 599, 601, 743, 745, 2400, 2976, 2976};
    static const size_t byte_lengths[] = {0, 1, 600, 744, 2399, 2401, 2975, 2977, 2404};
    static uint32_t table[BYTES_2], copy[BYTES_2];
    uint8_t bytes[BYTES_2 + 4] = {0}, bytes_copy[BYTES_2 + 4];
    const second_reply refused = {1, 0, 0, 0};

    for (int round = 0; round < LENGTH_ROUNDS; round++) {
        for (size_t i = 0; i < BYTES_2; i++)
            table[i] = gen_word(&at->random);
        gen_table(&at->random, at->form->edition, table);
        memcpy(copy, table, sizeof copy);
        to_bytes(bytes, table, WORDS_MOST);
        memcpy(bytes_copy, bytes, sizeof bytes);
        for (uint32_t service = BLANK; service <= ADD_HUB + 1; service++) {
            uint32_t call[8] = {service, 0, 0, 1, 2, 0, 0, service % 2};
            for (int i = 0; i < 9; i++) {
                second_summary_reply words = second_summary(table, lengths[i], 0);
                second_summary_reply octets = second_summary_bytes(bytes, byte_lengths[i], 0);
                if (!same_reply(second_call(table, lengths[i], call), refused) ||
                    !same_reply(second_call_bytes(bytes, byte_lengths[i], call), refused) ||
                    words.refusal != 1 || words.mask != 0 || words.count != 0 ||
                    octets.refusal != 1 || octets.mask != 0 || octets.count != 0)
                    fail(at, call, "another length is refusal 1");
                cover_call_length(&at->seen, lengths[i]);
                cover_call_byte_length(&at->seen, byte_lengths[i]);
                cover_summary(&at->seen, table, lengths[i], words);
            }
        }
        for (int i = 0; i < 9; i++)
            listing_length(at, table, lengths[i], bytes, byte_lengths[i]);
        if (memcmp(table, copy, sizeof copy) != 0 || memcmp(bytes, bytes_copy, sizeof bytes) != 0)
            fail(at, NULL, "refusal 1 changed the table");
    }
}

static void case_lengths(bench *at)
{
    for (uint32_t edition = EDITION_2; edition >= EDITION_1; edition--) {
        begin(at, "lengths", edition);
        set_edition(at, edition);
        refuse_lengths(at);
    }
}

/* The bytes themselves, so that both directions can't be wrong alike. */
static void case_bytes(bench *at)
{
    static const uint8_t contents[32] = {1,   0, 0, 0, 0,   0, 0, 0, 0,   0, 0, 0, 8,    0, 0, 0,
                                         136, 0, 0, 0, 200, 0, 0, 0, 216, 0, 0, 0, 0xD8, 1, 0, 0};
    static const uint8_t hub[16] = {2,    0,    0, 0, 0x34, 0x12, 0, 0,
                                    0xFF, 0xFF, 0, 0, 0x34, 0x12, 0, 0};
    static const uint32_t blank[8] = {0}, add[8] = {10, 0, 2, 0, 0, 65535, 0x1234};
    uint8_t bytes[BYTES];

    set_edition(at, EDITION_1);

    begin(at, "bytes", 0);
    memset(bytes, 0xAA, sizeof bytes);
    if (second_call_bytes(bytes, BYTES, blank).refusal != 0 || memcmp(bytes, contents, 32) != 0)
        fail(at, blank, "the contents as bytes");
    for (size_t i = 32; i < BYTES; i++)
        if (bytes[i] != 0)
            fail(at, blank, "the other bytes are 0");
    if (second_call_bytes(bytes, BYTES, add).refusal != 0 || bytes[8] != 1 ||
        memcmp(bytes + 544, hub, 16) != 0)
        fail(at, add, "the hub record as bytes");
}

static void case_bytes_2(bench *at)
{
    static const uint8_t contents[32] = {2,   0, 0, 0, 0,   0, 0, 0, 0,   0, 0, 0, 8,    0, 0, 0,
                                         152, 0, 0, 0, 216, 0, 0, 0, 232, 0, 0, 0, 0xE8, 1, 0, 0};
    static const uint8_t pair[8] = {1, 2, 3, 4, 5, 6, 7, 8};
    static const uint32_t calls[][8] = {
        {0}, {9, 0, 1, 1, 0, 0, 0, 0}, {10, 0, 4, 0, 0, 8, 0, 0},
        {1, 0, 0, 1, 2, 0, 0x04030201, 0x08070605}, {1, 0, 0, 2, 2, 0, 0, 0},
    };
    uint8_t bytes[BYTES_2];

    begin(at, "bytes of edition 2", 0);
    memset(bytes, 0xAA, sizeof bytes);
    for (size_t i = 0; i < 5; i++) {
        if (second_call_bytes(bytes, BYTES_2, calls[i]).refusal != 0)
            fail(at, calls[i], "the case's calls are accepted");
        for (size_t j = 32; i == 0 && j < BYTES_2; j++)
            if (bytes[j] != 0)
                fail(at, calls[i], "the other bytes are 0");
        if (i == 0 && memcmp(bytes, contents, 32) != 0)
            fail(at, calls[i], "the contents as bytes");
        if (i == 3 && memcmp(bytes + 1952, pair, 8) != 0)
            fail(at, calls[i], "a pair in a store as bytes");
        if (i == 4 && (memcmp(bytes + 56, pair, 8) != 0 || bytes[1952] != 0 || bytes[64] != 1))
            fail(at, calls[i], "a pair in a record as bytes");
    }
}

/* The listing of a table is that of its move (M-105), refused or not. */
static void check_same_listing(bench *at, const uint32_t *table)
{
    uint8_t text[LISTING_MOST], moved_text[LISTING_MOST];
    uint32_t moved[WORDS_MOST];

    if (move_of(at)(table, words_of(at), moved, other_form(at)->words) != ACCEPTED)
        fail(at, NULL, "the move was done before");
    second_listing_reply reply = second_listing(table, words_of(at), text, sizeof text);
    second_listing_reply again = second_listing(moved, other_form(at)->words, moved_text,
                                                sizeof moved_text);
    if (reply.refusal != again.refusal || reply.length != again.length ||
        memcmp(text, moved_text, reply.length) != 0)
        fail(at, NULL, "a table moved has another listing");
}

/* Texts written out, and the order of the refusals. */
static void case_listings(bench *at)
{
    static const uint32_t calls[][8] = {
        {0, 0, 0, 0, 0, 0, 0},   {9, 7, 5, 1, 7, 7, 7},   {10, 7, 4, 7, 7, 1, 0},
        {9, 0, 130, 0, 0, 0, 0}, {1, 0, 0, 1, 2, 0, 77},  {10, 0, 2, 0, 0, 65535, 40},
        {1, 0, 1, 1, 2, 0, 0},   {10, 0, 3, 0, 0, 0, 0},  {9, 0, 42, 1, 0, 0, 0},
        {10, 0, 1, 0, 0, 1, 0},  {10, 0, 5, 0, 0, 1, 0},  {1, 0, 4, 2, 2, 0, 0},
        {10, 0, 6, 0, 0, 1, 0},  {1, 0, 5, 1, 2, 0, 99},  {4, 0, 2, 0, 0, 0, 0},
        {7, 0, 0, 0, 0, 9, 0},
    };
    static const char blank_text[] = "0 0 0 0 0 0 0 0\n";
    static const char text[] = "0 0 0 0 0 0 0 0\n"
                               "9 0 5 0 0 0 0 0\n9 0 130 0 0 0 0 0\n9 0 42 0 0 0 0 0\n"
                               "10 0 4 0 0 1 0 0\n10 0 2 0 0 65535 40 0\n10 0 3 0 0 0 0 0\n"
                               "10 0 1 0 0 1 0 0\n10 0 5 0 0 1 0 0\n10 0 6 0 0 1 0 0\n";
    uint32_t table[WORDS_MOST] = {0};
    uint8_t listed[TEXT_BYTES];

    begin(at, "listings written out", 0);
    if (check_listing(at, table, 0).refusal != 2 || check_listing(at, table, 704).refusal != 2)
        fail(at, NULL, "all zeros isn't well formed, and 2 comes before 8");
    for (size_t i = 0; i < sizeof calls / sizeof *calls; i++) {
        const char *whole = i == 0 ? blank_text : text;
        if (second_call(table, words_of(at), calls[i]).refusal != 0)
            fail(at, calls[i], "the case's calls are accepted");
        if (i != 0 && i + 1 != sizeof calls / sizeof *calls)
            continue;
        size_t length = strlen(whole);
        memset(listed, '#', sizeof listed);
        second_listing_reply reply = second_listing(table, words_of(at), listed, length + 1);
        if (reply.refusal != 0 || reply.length != length || memcmp(listed, whole, length) != 0 ||
            listed[length] != '#')
            fail(at, NULL, "the case expects another listing");
        if (check_listing(at, table, length - 1).refusal != 8 ||
            check_listing(at, table, length).refusal != 0)
            fail(at, NULL, "8 exactly if the buffer is shorter");
    }
    check_same_listing(at, table);
    table[EDITION_AT] = 2;
    if (second_listing(table, WORDS - 1, listed, 0).refusal != 1 ||
        second_listing(table, words_of(at), listed, 0).refusal != 2)
        fail(at, NULL, "1 before 2 before 8");
}

/* The longest listing of all, into every room. */
static void case_longest(bench *at)
{
    static const uint32_t blank[8] = {0}, task[8] = {9, 0, 255, 0, 0, 0, 0};
    static const uint32_t hub[8] = {10, 0, 2, 0, 0, 65535, 65535};
    uint32_t table[WORDS_MOST] = {0};

    begin(at, "longest listing", 0);
    second_call(table, words_of(at), blank);
    for (int i = 0; i < 16; i++) {
        second_call(table, words_of(at), task);
        second_call(table, words_of(at), hub);
    }
    for (size_t room = 0; room <= 704 + PAST; room++)
        if (check_listing(at, table, room).length != (room < 704 ? 0u : 704u))
            fail(at, NULL, "the longest listing has 704 bytes");
}

static void take_calls(bench *at, uint32_t *table, const uint32_t calls[][8], size_t count)
{
    for (size_t i = 0; i < count; i++)
        if (second_call(table, words_of(at), calls[i]).refusal != 0)
            fail(at, calls[i], "the case's calls are accepted");
}

/* Entries written out, into just enough room. */
static void entries_are(bench *at, const pair *of, const uint32_t entries[][3], uint32_t count)
{
    uint32_t places[ENTRY_WORDS * 16];
    second_compare_reply reply = second_compare(of->first, of->first_words, of->second,
                                                of->second_words, places, ENTRY_WORDS * count);

    if (reply.refusal != 0 || reply.count != count ||
        memcmp(places, entries, count * sizeof *entries) != 0)
        fail(at, NULL, "the case expects other entries");
    for (size_t room = 0; room <= ENTRY_WORDS * count + BEHIND; room++)
        if (check_compare(at, of, room).refusal != (room < ENTRY_WORDS * count ? 8u : 0u))
            fail(at, NULL, "8 exactly if the buffer is shorter");
}

/* M-106: a get that has to wait, on both editions; a put of 64 bits that meets it, on
 * edition 2. */
static void case_compare(bench *at)
{
    static const uint32_t set_up[][8] = {
        {0}, {9, 0, 5, 1}, {9, 0, 3, 1}, {10, 0, 4, 0, 0, 1, 0},
    };
    static const uint32_t get[][8] = {{1, 1, 0, 2, 3, 2, 0, 0}};
    static const uint32_t put[][8] = {{1, 0, 0, 1, 1, 0, 77, 5}};
    static const uint32_t waits[][3] = {{16, 2, 3}, {19, 0, 1},  {20, 0, 2}, {21, 0, 2},
                                        {200, 2, 1}, {201, 1, 0}, {216, 0, 2}};
    static const uint32_t waits_2[][3] = {{17, 2, 3}, {20, 0, 1},  {21, 0, 2}, {22, 0, 2},
                                          {216, 2, 1}, {217, 1, 0}, {232, 0, 2}};
    static const uint32_t met[][3] = {{16, 0, 1}, {17, 3, 2},  {20, 1, 0},  {21, 2, 0}, {22, 2, 0},
                                      {23, 0, 77}, {24, 0, 5}, {25, 0, 1}, {216, 1, 2}, {217, 0, 1},
                                      {232, 2, 0}};
    uint32_t before[WORDS_MOST], after[WORDS_MOST];

    for (uint32_t edition = EDITION_1; edition <= EDITION_2; edition++) {
        begin(at, "entries written out", edition);
        set_edition(at, edition);
        memset(before, 0, sizeof before);
        take_calls(at, before, set_up, 4);
        memcpy(after, before, sizeof after);
        take_calls(at, after, get, 1);
        pair of = pair_of(at, before, after);
        entries_are(at, &of, edition == EDITION_1 ? waits : waits_2, 7);
    }
    memcpy(before, after, sizeof before);
    take_calls(at, after, put, 1);
    pair of = pair_of(at, before, after);
    entries_are(at, &of, met, 11);
}

enum { RIGHT, CHANGED, WRONG, OTHER, OTHER_WRONG, CUT, LONG, GIVEN };

/* Tables of the edition at hand and of the other, well formed and not, and such as have a
 * word too few or too many; the second of them isn't the first. */
static void draw_given(bench *at, uint32_t tables[GIVEN][WORDS_MOST], size_t words[GIVEN])
{
    uint32_t edition = at->form->edition, other = other_form(at)->edition;

    memset(tables, 0, GIVEN * sizeof *tables);
    for (int i = 0; i < GIVEN; i++)
        words[i] = i == OTHER || i == OTHER_WRONG ? other_form(at)->words
                   : i == CUT                     ? words_of(at) - 1
                   : i == LONG                    ? words_of(at) + 1
                                                  : words_of(at);
    gen_table(&at->random, edition, tables[RIGHT]);
    do
        gen_table(&at->random, edition, tables[CHANGED]);
    while (same_words(at, tables[RIGHT], tables[CHANGED]));
    gen_damaged(&at->random, edition, gen_below(&at->random, 100), tables[WRONG]);
    gen_table(&at->random, other, tables[OTHER]);
    gen_damaged(&at->random, other, gen_below(&at->random, 100), tables[OTHER_WRONG]);
    gen_table(&at->random, edition, tables[CUT]);
    gen_table(&at->random, edition, tables[LONG]);
}

/* The order of a comparison's refusals: 1 and 2 of the first table, of the second, 13, 8. */
static void case_compare_order(bench *at)
{
    static const struct {
        int first, second;
        uint32_t room, refusal;
    } order[] = {
        {CUT, RIGHT, ROOM_WORDS, 1},     {CUT, RIGHT, 0, 1},       {CUT, WRONG, 0, 1},
        {CUT, LONG, ROOM_WORDS, 1},      {LONG, OTHER, 0, 1},      {LONG, OTHER_WRONG, 0, 1},
        {WRONG, RIGHT, ROOM_WORDS, 2},   {WRONG, CUT, 0, 2},       {WRONG, LONG, ROOM_WORDS, 2},
        {WRONG, OTHER, ROOM_WORDS, 2},   {WRONG, OTHER, 0, 2},     {WRONG, OTHER_WRONG, 0, 2},
        {WRONG, WRONG, 0, 2},            {RIGHT, CUT, 0, 1},       {RIGHT, LONG, ROOM_WORDS, 1},
        {RIGHT, WRONG, ROOM_WORDS, 2},   {RIGHT, WRONG, 0, 2},     {RIGHT, OTHER_WRONG, 0, 2},
        {RIGHT, OTHER, ROOM_WORDS, 13},  {RIGHT, OTHER, 0, 13},    {RIGHT, CHANGED, 0, 8},
        {RIGHT, CHANGED, ROOM_WORDS, 0}, {RIGHT, RIGHT, 0, 0},
    };
    uint32_t tables[GIVEN][WORDS_MOST];
    size_t words[GIVEN];

    for (uint32_t edition = EDITION_2; edition >= EDITION_1; edition--) {
        begin(at, "order of refusals, compared", edition);
        set_edition(at, edition);
        for (size_t i = 0; i < LENGTH_ROUNDS * sizeof order / sizeof *order; i++) {
            size_t j = i % (sizeof order / sizeof *order);
            pair of;
            if (j == 0)
                draw_given(at, tables, words);
            memcpy(of.first, tables[order[j].first], sizeof of.first);
            memcpy(of.second, tables[order[j].second], sizeof of.second);
            of.first_words = words[order[j].first];
            of.second_words = words[order[j].second];
            if (check_compare(at, &of, order[j].room).refusal != order[j].refusal)
                fail(at, NULL, "the case expects another refusal");
        }
    }
}

/* Tables of so many bytes, cut short or with zeros behind. */
static void compare_byte_lengths(bench *at, const pair *of, size_t first, size_t second)
{
    uint32_t held[PLACES_WORDS], after[PLACES_WORDS];
    size_t room = gen_chance(&at->third, 50) ? 0 : ROOM_WORDS;

    hold_places(at, held);
    memcpy(after, held, sizeof after);
    second_compare_reply reply = expect_compare(of->first, first % 4 == 0 ? first / 4 : 0,
                                                of->second, second % 4 == 0 ? second / 4 : 0,
                                                after, room);
    check_compare_bytes(at, of, first, second, room, reply, held, after);
    if (reply.refusal == BAD_LENGTH)
        cover_compare_bytes(&at->seen, first, second);
}

/* Every pair of lengths around both sizes. */
static void case_compare_lengths(bench *at)
{
    static const size_t lengths[] = {0, 1, 599, 600, 601, 743, 744, 745};
    static const size_t byte_lengths[] = {0,    1,    600,  744,  2396, 2397, 2399, 2400, 2401,
                                          2402, 2404, 2972, 2975, 2976, 2977, 2978, 2980};
    enum { BYTE_LENGTHS = sizeof byte_lengths / sizeof *byte_lengths };
    pair of;

    for (uint32_t edition = EDITION_2; edition >= EDITION_1; edition--) {
        begin(at, "lengths, compared", edition);
        set_edition(at, edition);
        for (int round = 0; round < LENGTH_ROUNDS; round++) {
            memset(&of, 0, sizeof of);
            gen_table(&at->random, edition, of.first);
            gen_table(&at->random, round % 3 == 0 ? other_form(at)->edition : edition, of.second);
            for (size_t i = 0; i < 64; i++) {
                of.first_words = lengths[i / 8];
                of.second_words = lengths[i % 8];
                check_compare(at, &of, draw_words(at, &of));
            }
            for (size_t i = 0; i < BYTE_LENGTHS * BYTE_LENGTHS; i++)
                compare_byte_lengths(at, &of, byte_lengths[i / BYTE_LENGTHS],
                                     byte_lengths[i % BYTE_LENGTHS]);
        }
    }
}

/* ---- Families ---------------------------------------------------------- */

static void part_cases(bench *at)
{
    set_edition(at, EDITION_1);
    case_marked(at);
    case_refusal_order(at);
    case_slips(at);
    case_resource(at);
    case_stop(at);
    case_stop_14(at);
    case_inactive_owner(at);
    case_board(at);
    case_readers(at);
    case_readers_15(at);
    case_blocks(at);
    case_getters(at);
    case_ahead(at);
    case_ahead_15(at);
    case_inherit(at);
    case_inherit_3(at);
    case_put_back(at);
    case_chains(at);
    case_ticks(at);
    case_caller_as_target(at);
    case_full(at);
    case_pairs(at);
    case_high_on_1(at);
    case_moves(at);
    case_high_blocks(at);
    case_move_lengths(at);
    case_lengths(at);
    case_bytes(at);
    case_bytes_2(at);
    case_listings(at);
    case_longest(at);
    case_compare(at);
    case_compare_order(at);
    case_compare_lengths(at);
    set_edition(at, EDITION_1);
}

/* Calls with a high word: on edition 1 few, since it refuses the requests among them. */
static void draw_mood(bench *at, gen_mood *mood)
{
    gen_draw_mood(&at->random, mood);
    mood->high = at->form->edition == EDITION_1 ? 5 : 60;
}

/* The same of a run with many locks. */
static void draw_lock_mood(bench *at, gen_mood *mood)
{
    gen_draw_lock_mood(&at->random, mood);
    mood->high = at->form->edition == EDITION_1 ? 2 : 60;
}

/* mutants/run asks whether demand 3 alone catches what breaks it. */
static void one_run(bench *at, uint32_t calls, void (*draw)(bench *, gen_mood *), int alone)
{
    uint32_t table[WORDS_MOST] = {0}, call[8];
    gen_mood mood;

    draw(at, &mood);
    ledger_begin(&at->book);
    for (uint32_t i = 0; i < calls; i++) {
        if (i % 64 == 63)
            gen_turn(&at->random, &mood);
        gen_call(&at->random, &mood, table, call);
        if (call[C_SERVICE] == BLANK && i > 0)
            end_run(at, call, table);
        second_reply reply = enter_call(at, table, call, alone);
        at->requests += call[C_SERVICE] == HUB_REQUEST && reply.refusal == ACCEPTED;
    }
    end_run(at, NULL, table);
}

static void part_runs(bench *at, const scale *to, int alone)
{
    for (uint32_t run = 0; run < to->runs; run++) {
        begin(at, alone ? "demand 3" : "runs", run);
        one_run(at, to->calls, draw_mood, alone);
    }
}

static void part_lock_runs(bench *at, const scale *to, int alone)
{
    for (uint32_t run = 0; run < to->lock_runs; run++) {
        begin(at, alone ? "demand 3, locks" : "lock runs", run);
        one_run(at, to->calls, draw_lock_mood, alone);
    }
}

static void part_tables(bench *at, const scale *to)
{
    uint32_t table[WORDS_MOST], call[8];
    gen_mood mood;

    for (uint32_t i = 0; i < to->tables; i++) {
        begin(at, "tables", i);
        gen_table(&at->random, at->form->edition, table);
        if (second_well_formed(table, words_of(at)) != SECOND_RIGHT || !well_formed(at, table))
            fail(at, NULL, "a built table isn't well formed");
        draw_mood(at, &mood);
        mood.tasks = mood.hubs = 0; /* nothing to add first */
        for (uint32_t j = 0; j < to->table_calls; j++) {
            gen_call(&at->random, &mood, table, call);
            check_call(at, table, call);
        }
    }
}

/* The call drawn with the table, and a few more: whoever was met goes on. */
static void part_met(bench *at, const char *part, uint32_t tables,
                     void (*draw)(gen_random *, uint32_t, uint32_t *, uint32_t *))
{
    uint32_t table[WORDS_MOST], call[8];
    gen_mood mood;

    for (uint32_t i = 0; i < tables; i++) {
        begin(at, part, i);
        draw(&at->random, at->form->edition, table, call);
        if (second_well_formed(table, words_of(at)) != SECOND_RIGHT || !well_formed(at, table))
            fail(at, NULL, "a built table isn't well formed");
        draw_mood(at, &mood);
        mood.tasks = mood.hubs = 0; /* nothing to add first */
        for (int j = 0; j < 4; j++) {
            check_call(at, table, call);
            gen_call(&at->random, &mood, table, call);
        }
    }
}

/* One after the other asks, so the list grows; a Tick comes where nobody is left. */
static void part_queues(bench *at, const scale *to)
{
    uint32_t table[WORDS_MOST], call[8];

    for (uint32_t i = 0; i < to->queues; i++) {
        begin(at, "queues", i);
        gen_queue(&at->random, at->form->edition, table, call);
        if (second_well_formed(table, words_of(at)) != SECOND_RIGHT || !well_formed(at, table))
            fail(at, NULL, "a built table isn't well formed");
        for (int j = 0; j < 4; j++) {
            check_call(at, table, call);
            gen_ask(&at->random, table, call[C_TARGET], call);
        }
    }
}

/* Refused with 2 whatever the call, but for Blank, which is accepted. */
static void one_damaged(bench *at, size_t family)
{
    uint32_t table[WORDS_MOST], call[8];
    int clause;

    gen_damaged(&at->random, at->form->edition, family, table);
    clause = second_well_formed(table, words_of(at));
    if (well_formed(at, table) || clause != gen_damage_clause(family))
        fail(at, NULL, gen_damage_name(family));
    check_summary(at, table, gen_below(&at->random, 17));
    for (uint32_t service = HUB_REQUEST; service <= ADD_HUB + 2; service++) {
        for (int i = 0; i < CALL_NUMBERS; i++)
            call[i] = gen_below(&at->random, 4);
        call[C_SERVICE] = service <= ADD_HUB + 1 ? service : UINT32_MAX;
        if (check_call(at, table, call).refusal != NOT_WELL_FORMED)
            fail(at, call, gen_damage_name(family));
    }
    call[C_SERVICE] = BLANK;
    for (int i = 0; i < 3; i++) {
        size_t room = i == 0 ? 0 : i == 1 ? LISTING_MOST : draw_room(at, table);
        if (check_listing(at, table, room).refusal != NOT_WELL_FORMED)
            fail(at, NULL, gen_damage_name(family));
    }
    if (check_call(at, table, call).refusal != ACCEPTED)
        fail(at, call, "Blank takes any table");
    cover_damage(&at->seen, family);
}

static void part_damaged(bench *at, const scale *to)
{
    for (size_t family = 0; family < gen_damages(at->form->edition); family++) {
        begin(at, "damaged", family);
        for (uint32_t i = 0; i < to->damages; i++)
            one_damaged(at, family);
    }
}

/* A few words changed at random: right or not, both readings agree. */
static void part_flips(bench *at, const scale *to)
{
    uint32_t table[WORDS_MOST], call[8];
    gen_mood mood;

    begin(at, "flips", 0);
    for (uint32_t i = 0; i < to->flips; i++) {
        gen_table(&at->random, at->form->edition, table);
        draw_mood(at, &mood);
        gen_call(&at->random, &mood, table, call);
        gen_flip(&at->random, table);
        if ((second_well_formed(table, words_of(at)) == SECOND_RIGHT) != well_formed(at, table))
            fail(at, call, "the two readings of well formed differ");
        check_call(at, table, call);
    }
}

/* The drill runner builds the set-up alone, and takes every line of it. The text
 * comes in two pieces. */
static void check_built(bench *at, const uint32_t *table)
{
    uint32_t stripped[RUNNER_WORDS];
    uint8_t text[LISTING_MOST];
    char printed[512] = {0}; /* 33 lines of 8 bytes at most */
    second_listing_reply reply = second_listing(table, words_of(at), text, sizeof text);
    size_t cut = gen_below(&at->other, reply.length + 1), lines = 0;
    FILE *out = fmemopen(printed, sizeof printed, "w");
    runner run;

    if (out == NULL)
        fail(at, NULL, "no stream for the runner");
    runner_begin(&run, out);
    runner_feed(&run, text, cut);
    runner_feed(&run, text + cut, reply.length - cut);
    runner_end(&run);
    fclose(out);
    for (size_t i = 0; i < reply.length; i++)
        if (text[i] == '\n' && memcmp(printed + 8 * lines++, "0 0 0 0\n", 8) != 0)
            fail(at, NULL, "a line of the listing isn't accepted");
    if (run.number != lines || lines != 1 + table[TASKS_IN_USE_AT] + table[HUBS_IN_USE_AT])
        fail(at, NULL, "the listing has another number of lines");
    expect_stripped(table, words_of(at), stripped, RUNNER_WORDS);
    if (memcmp(run.table, stripped, sizeof stripped) != 0)
        fail(at, NULL, "the drill runner builds another table from the listing");
}

/* One number of the set-up changed, in the table or, where that can't be, in its
 * set-up alone: another listing. */
static void check_changed(bench *at, const uint32_t *table, const uint32_t *stripped,
                          gen_place place)
{
    uint32_t changed[WORDS_MOST];

    for (int i = 0; i < 4; i++) {
        memcpy(changed, i < 2 ? table : stripped, bytes_of(at));
        if (!gen_change(&at->random, place, changed) || !well_formed(at, changed))
            continue;
        if (check_pair(at, table, changed) || check_pair(at, changed, stripped))
            fail(at, NULL, "another set-up has the same listing");
        cover_pair(&at->seen, COVER_PRIORITY + (cover_relation)place);
        return;
    }
}

static void every_room(bench *at, const uint32_t *table)
{
    size_t needed = expect_listing_length(table, words_of(at));

    for (size_t room = 0; room <= needed + PAST; room++)
        if (check_listing(at, table, room).refusal != (room < needed ? 8u : 0u))
            fail(at, NULL, "8 exactly if the buffer is shorter");
}

/* Tables that no run need reach, every second one with numbers of every length. */
static void part_listings(bench *at, const scale *to)
{
    uint32_t table[WORDS_MOST], stripped[WORDS_MOST], last[WORDS_MOST];

    expect_stripped((uint32_t[WORDS_MOST]){0}, words_of(at), last, words_of(at));
    for (uint32_t i = 0; i < to->set_ups; i++) {
        begin(at, "listings", i);
        if (i % 2 == 0)
            gen_set_up(&at->random, at->form->edition, table);
        else
            gen_table(&at->random, at->form->edition, table);
        if (second_well_formed(table, words_of(at)) != SECOND_RIGHT || !well_formed(at, table))
            fail(at, NULL, "a built table isn't well formed");
        size_t needed = expect_listing_length(table, words_of(at));
        check_listing(at, table, needed - 1);
        check_listing(at, table, needed);
        check_listing(at, table, draw_room(at, table));
        if (i < to->rooms)
            every_room(at, table);

        expect_stripped(table, words_of(at), stripped, words_of(at));
        check_built(at, table);
        check_same_listing(at, stripped);
        if (!check_pair(at, table, stripped))
            fail(at, NULL, "the set-up alone has another listing");
        cover_pair(&at->seen, COVER_STRIPPED);
        for (int place = GEN_PRIORITY; place <= GEN_START; place++)
            check_changed(at, table, stripped, (gen_place)place);
        if (!check_pair(at, last, table))
            cover_pair(&at->seen, COVER_ANOTHER);
        memcpy(last, table, bytes_of(at));
    }
}

/* What a table of edition 2 that is to be moved has of high words: none, one, or those it
 * was drawn with. */
static void draw_highs(bench *at, uint32_t *table)
{
    uint32_t draw = gen_below(&at->random, 10);

    if (at->form->edition == EDITION_1 || draw < 2)
        return;
    gen_clear_high(table);
    if (draw < 7)
        gen_one_high(&at->random, table);
}

/* A call without a high word does the same to the table moved as to the table: the same
 * reply, and the table after it moved. */
static void check_same_call(bench *at, const uint32_t *table, const uint32_t *moved)
{
    uint32_t after[WORDS_MOST], moved_after[WORDS_MOST], again[WORDS_MOST], call[8];
    gen_mood mood;

    gen_draw_mood(&at->random, &mood);
    mood.tasks = mood.hubs = 0;
    gen_call(&at->random, &mood, table, call);
    memcpy(after, table, bytes_of(at));
    memcpy(moved_after, moved, 4 * other_form(at)->words);
    if (!same_reply(second_call(after, words_of(at), call),
                    second_call(moved_after, other_form(at)->words, call)))
        fail(at, call, "the table moved gives another reply");
    if (move_of(at)(after, words_of(at), again, other_form(at)->words) != ACCEPTED ||
        memcmp(again, moved_after, 4 * other_form(at)->words) != 0)
        fail(at, call, "the call on the table moved isn't the call, moved");
}

/* Each way followed by the other gives the first table again. */
static void check_back(bench *at, const uint32_t *table, const uint32_t *moved)
{
    uint32_t back[WORDS_MOST];

    cover_move_back(&at->seen);
    set_edition(at, other_form(at)->edition);
    if (move_table(at, moved, back) != ACCEPTED)
        fail(at, NULL, "a table moved is refused on its way back");
    set_edition(at, other_form(at)->edition);
    if (!same_words(at, back, table))
        fail(at, NULL, "there and back again isn't the first table");
}

static void one_move(bench *at)
{
    static const size_t lengths[] = {0, 1, 599, 600, 601, 743, 744, 745};
    uint32_t table[WORDS_MOST] = {0}, moved[WORDS_MOST], call[8], edition = at->form->edition;
    size_t from = words_of(at), to = other_form(at)->words, families = gen_damages(edition);

    switch (gen_below(&at->random, 9)) {
    case 8:
        gen_chain(&at->random, edition, table, call);
        break;
    case 0:
        gen_stop(&at->random, edition, table, call);
        break;
    case 1:
        gen_board(&at->random, edition, table, call);
        break;
    case 2:
        gen_queue(&at->random, edition, table, call);
        break;
    case 3:
        gen_set_up(&at->random, edition, table);
        break;
    case 4:
        gen_pool(&at->random, edition, table, call);
        break;
    default:
        gen_table(&at->random, edition, table);
        break;
    }
    draw_highs(at, table);
    if (gen_chance(&at->random, 10))
        gen_damaged(&at->random, edition, gen_below(&at->random, (uint32_t)families), table);
    if (gen_chance(&at->random, 5))
        from = lengths[gen_below(&at->random, 8)];
    if (gen_chance(&at->random, 5))
        to = lengths[gen_below(&at->random, 8)];
    if (check_move(at, table, from, to, moved) == ACCEPTED) {
        check_back(at, table, moved);
        check_same_call(at, table, moved);
        if (at->moves[0] % 8 == 0)
            check_same_listing(at, table);
    }
}

/* A run that goes on in the other edition wherever a move is accepted; at times without
 * high words for a while, so that it comes down again. */
static void moved_run(bench *at, uint32_t calls, int alone)
{
    uint32_t table[WORDS_MOST] = {0}, moved[WORDS_MOST], call[8];
    gen_mood mood;
    const char *wrong;

    gen_draw_mood(&at->random, &mood);
    set_edition(at, gen_chance(&at->random, 50) ? EDITION_1 : EDITION_2);
    ledger_begin(&at->book);
    for (uint32_t i = 0; i < calls; i++) {
        if (i % 64 == 63)
            gen_turn(&at->random, &mood);
        if (i % 32 == 0)
            mood.high = gen_chance(&at->random, 70) ? 0 : gen_chance(&at->random, 50) ? 5 : 50;
        gen_call(&at->random, &mood, table, call);
        if (at->form->edition == EDITION_1)
            call[C_HIGH] = gen_chance(&at->random, 98) ? 0 : call[C_HIGH];
        if (call[C_SERVICE] == BLANK && i > 0)
            end_run(at, call, table);
        enter_call(at, table, call, alone);
        if (!gen_chance(&at->random, 8))
            continue;
        uint32_t refusal = alone ? move_of(at)(table, words_of(at), moved, other_form(at)->words)
                                 : move_table(at, table, moved);
        if (refusal != ACCEPTED)
            continue;
        if ((wrong = ledger_move(&at->book, table, moved)) != NULL)
            fail(at, NULL, wrong);
        cover_move_in_run(&at->seen, table);
        memcpy(table, moved, sizeof table);
        set_edition(at, other_form(at)->edition);
    }
    end_run(at, NULL, table);
}

static void part_moved_runs(bench *at, const scale *to, int alone)
{
    for (uint32_t run = 0; run < to->moved_runs; run++) {
        begin(at, alone ? "demand 3, moves" : "moved runs", run);
        moved_run(at, to->calls, alone);
    }
}

static void part_moves(bench *at, const scale *to)
{
    for (uint32_t i = 0; i < to->moves; i++) {
        begin(at, "moves", i);
        for (uint32_t edition = EDITION_1; edition <= EDITION_2; edition++) {
            set_edition(at, edition);
            one_move(at);
        }
    }
}

/* A table of any family, and a call on it: the table before and after. */
static void draw_neighbours(bench *at, pair *of)
{
    uint32_t call[8], edition = at->form->edition;
    gen_mood mood;

    draw_mood(at, &mood);
    mood.tasks = mood.hubs = gen_chance(&at->random, 20) ? TASKS : 0; /* something to add, or not */
    switch (gen_below(&at->random, 7)) {
    case 6:
        gen_chain(&at->random, edition, of->first, call);
        break;
    case 0:
        gen_stop(&at->random, edition, of->first, call);
        break;
    case 1:
        gen_board(&at->random, edition, of->first, call);
        break;
    case 2:
        gen_queue(&at->random, edition, of->first, call);
        break;
    case 3:
        gen_pool(&at->random, edition, of->first, call);
        break;
    default:
        gen_table(&at->random, edition, of->first);
        gen_call(&at->random, &mood, of->first, call);
        break;
    }
    if (gen_chance(&at->random, 5))
        call[C_SERVICE] = BLANK;
    memcpy(of->second, of->first, bytes_of(at));
    second_reply reply = second_call(of->second, words_of(at), call);
    cover_neighbours(&at->seen, call, reply.refusal);
}

/* Two tables of the edition at hand, near to each other or far apart. */
static void draw_pair(bench *at, pair *of)
{
    uint32_t edition = at->form->edition, draw = gen_below(&at->random, 10);

    if (draw < 4) {
        draw_neighbours(at, of);
    } else if (draw < 6) {
        gen_table(&at->random, edition, of->first);
        gen_set_up(&at->random, edition, of->second);
    } else if (draw == 6) {
        gen_apart(&at->random, edition, of->first, of->second);
    } else if (draw == 7) {
        gen_last_word(&at->random, edition, of->first, of->second);
    } else { /* the same, or but for one word */
        gen_table(&at->random, edition, of->first);
        memcpy(of->second, of->first, bytes_of(at));
        if (draw == 8)
            gen_one_word(&at->random, of->second);
    }
}

/* Then one of them, or both, is damaged, of the other edition, or of another length. */
static void spoil_pair(bench *at, pair *of)
{
    static const size_t lengths[] = {0, 1, 599, 601, 743, 745};
    const layout *other = other_form(at);
    uint32_t family = gen_below(&at->random, (uint32_t)gen_damages(EDITION_1));

    if (gen_chance(&at->random, 12)) {
        gen_table(&at->random, other->edition, of->second);
        of->second_words = other->words;
    }
    if (gen_chance(&at->random, 10))
        gen_damaged(&at->random, at->form->edition, family, of->first);
    if (gen_chance(&at->random, 10))
        gen_damaged(&at->random, of->second_words == other->words ? other->edition
                                                                  : at->form->edition,
                    family, of->second);
    if (gen_chance(&at->random, 6))
        of->first_words = lengths[gen_below(&at->random, 6)];
    if (gen_chance(&at->random, 6))
        of->second_words = lengths[gen_below(&at->random, 6)];
}

static void every_word_of_room(bench *at, const pair *of)
{
    size_t needed = words_needed(at, of);

    for (size_t room = 0; room <= needed + BEHIND; room++)
        if (check_compare(at, of, room).refusal != (room < needed ? 8u : 0u))
            fail(at, NULL, "8 exactly if the buffer is shorter");
}

/* Every pair as drawn, into some rooms or into every one; then spoiled. */
static void part_compares(bench *at, const scale *to)
{
    for (uint32_t i = 0; i < to->pairs; i++) {
        pair of = {.first_words = words_of(at), .second_words = words_of(at)};

        begin(at, "compares", i);
        draw_pair(at, &of);
        if (second_well_formed(of.first, words_of(at)) != SECOND_RIGHT ||
            second_well_formed(of.second, words_of(at)) != SECOND_RIGHT)
            fail(at, NULL, "a table drawn to be compared isn't well formed");
        check_compare(at, &of, draw_words(at, &of));
        if (i < to->pair_rooms)
            every_word_of_room(at, &of);
        spoil_pair(at, &of);
        check_compare(at, &of, draw_words(at, &of));
    }
}

/* ---- The parts --------------------------------------------------------- */

static double seconds(void)
{
    struct timespec now;
    clock_gettime(CLOCK_MONOTONIC, &now);
    return (double)now.tv_sec + (double)now.tv_nsec / 1e9;
}

/* One line: the part, what it did, how long it took. */
static void report(const char *part, const char *what, uint64_t count, const char *of,
                   double since)
{
    printf("%-10s %10" PRIu64 " %s  %6.1f s  ok  %s\n", part, count, of, seconds() - since, what);
    fflush(stdout);
}

static void run_cases(bench *at)
{
    uint64_t calls = at->calls;
    double since = seconds();

    part_cases(at);
    report("cases",
           "marked lines, refusal order, lengths, bytes, corners, Stops, Boards, blocks, ahead, "
           "inheritance, pairs, moves, listings, comparisons",
           at->calls - calls, "calls", since);
}

static void run_well_formed(bench *at, const scale *to)
{
    char what[128];
    uint64_t calls, requests = at->requests;
    double since;

    calls = at->calls, since = seconds();
    part_runs(at, to, 0);
    snprintf(what, sizeof what, "%" PRIu32 " runs from Blank, demand 3 over %" PRIu64 " requests",
             to->runs, at->requests - requests);
    report("runs", what, at->calls - calls, "calls", since);

    calls = at->calls, since = seconds();
    part_tables(at, to);
    snprintf(what, sizeof what, "%" PRIu32 " built tables", to->tables);
    report("tables", what, at->calls - calls, "calls", since);

    calls = at->calls, since = seconds();
    part_met(at, "stops", to->stops, gen_stop);
    snprintf(what, sizeof what, "%" PRIu32 " Stops of a task that owns none to 16 Resources",
             to->stops);
    report("stops", what, at->calls - calls, "calls", since);

    calls = at->calls, since = seconds();
    part_met(at, "boards", to->boards, gen_board);
    snprintf(what, sizeof what, "%" PRIu32 " requests to a Board, none to 15 readers waiting",
             to->boards);
    report("boards", what, at->calls - calls, "calls", since);

    calls = at->calls, since = seconds();
    part_met(at, "pools", to->pools, gen_pool);
    snprintf(what, sizeof what, "%" PRIu32 " blocks put or taken, none to 15 getters waiting",
             to->pools);
    report("pools", what, at->calls - calls, "calls", since);

    calls = at->calls, since = seconds();
    part_queues(at, to);
    snprintf(what, sizeof what, "%" PRIu32 " hubs at which none to 15 wait, asked again and again",
             to->queues);
    report("queues", what, at->calls - calls, "calls", since);

    calls = at->calls, since = seconds();
    part_met(at, "chains", to->chains, gen_chain);
    snprintf(what, sizeof what, "%" PRIu32 " chains and rings of 2 to 16 tasks", to->chains);
    report("chains", what, at->calls - calls, "calls", since);

    calls = at->calls, requests = at->requests, since = seconds();
    part_lock_runs(at, to, 0);
    snprintf(what, sizeof what,
             "%" PRIu32 " runs from Blank with many locks, demand 3 over %" PRIu64 " requests",
             to->lock_runs, at->requests - requests);
    report("lock runs", what, at->calls - calls, "calls", since);
}

static void run_damaged(bench *at, const scale *to)
{
    char what[128];
    uint64_t calls = at->calls;
    double since = seconds();

    part_damaged(at, to);
    snprintf(what, sizeof what, "%zu families of %" PRIu32 " damaged tables",
             gen_damages(at->form->edition), to->damages);
    report("damaged", what, at->calls - calls, "calls", since);

    calls = at->calls, since = seconds();
    part_flips(at, to);
    snprintf(what, sizeof what, "%" PRIu32 " tables with words changed", to->flips);
    report("flips", what, at->calls - calls, "calls", since);
}

static void run_listings(bench *at, const scale *to)
{
    char what[128];
    uint64_t listings = at->listings;
    double since = seconds();

    part_listings(at, to);
    snprintf(what, sizeof what,
             "%" PRIu32 " set-ups, %" PRIu32 " into every room; %" PRIu64 " texts in parts above",
             to->set_ups, to->rooms, listings);
    report("listings", what, at->listings - listings, "texts", since);
}

static void run_compares(bench *at, const scale *to)
{
    char what[128];
    uint64_t compares = at->compares;
    double since = seconds();

    part_compares(at, to);
    snprintf(what, sizeof what,
             "%" PRIu32 " pairs, %" PRIu32 " into every room; %" PRIu64 " in parts above",
             to->pairs, to->pair_rooms, compares);
    report("compares", what, at->compares - compares, "pairs", since);
}

static void run_moves(bench *at, const scale *to)
{
    char what[128];
    uint64_t calls = at->calls, moves;
    double since = seconds();

    part_moved_runs(at, to, 0);
    snprintf(what, sizeof what, "%" PRIu32 " runs that move, demand 3: %" PRIu64 " times up, %"
             PRIu64 " down", to->moved_runs, at->moved[0], at->moved[1]);
    report("moved runs", what, at->calls - calls, "calls", since);

    moves = at->moves[0] + at->moves[1], since = seconds();
    part_moves(at, to);
    snprintf(what, sizeof what, "%" PRIu64 " up, %" PRIu64 " done; %" PRIu64 " down, %" PRIu64
             " done; all parts", at->moves[0], at->moved[0], at->moves[1], at->moved[1]);
    report("moves", what, at->moves[0] + at->moves[1] - moves, "moves", since);
    if (at->moved[0] < to->moves || at->moved[1] < to->moves)
        fail(at, NULL, "too few moves were done");
}

static void check_coverage(bench *at, uint32_t edition)
{
    char name[96];
    size_t rows;
    uint64_t fewest = cover_fewest(&at->seen, edition, name, sizeof name, &rows);

    printf("coverage   edition %" PRIu32 ": %zu rows, fewest hits %" PRIu64 " (%s)  %s\n", edition,
           rows, fewest, name, fewest >= COVER_LEAST ? "ok" : "FAILED");
    if (fewest < COVER_LEAST)
        exit(1);
}

int main(int count, char **words)
{
    static bench at; /* the ledger is too large for some stacks */
    int table = count == 3 && strcmp(words[2], "coverage") == 0;
    int alone = count == 3 && strcmp(words[2], "demand3") == 0;

    for (size_t i = 0; i < sizeof scales / sizeof *scales && (count == 2 || table || alone); i++) {
        if (strcmp(words[1], scales[i].name) != 0)
            continue;
        alarm(scales[i].seconds);
        if (alone) {
            for (uint32_t edition = EDITION_1; edition <= EDITION_2; edition++) {
                set_edition(&at, edition);
                part_runs(&at, &scales[i], alone);
                part_lock_runs(&at, &scales[i], alone);
            }
            part_moved_runs(&at, &scales[i], alone);
            return 0;
        }
        run_cases(&at);
        run_moves(&at, &scales[i]);
        for (uint32_t edition = EDITION_1; edition <= EDITION_2; edition++) {
            uint64_t calls = at.calls;
            set_edition(&at, edition);
            run_well_formed(&at, &scales[i]);
            run_damaged(&at, &scales[i]);
            run_listings(&at, &scales[i]);
            run_compares(&at, &scales[i]);
            printf("edition %" PRIu32 "  %10" PRIu64 " calls\n", edition, at.calls - calls);
            if (at.calls - calls < scales[i].least)
                fail(&at, NULL, "too few calls were made on this edition");
        }
        if (table)
            cover_print(&at.seen);
        for (uint32_t edition = EDITION_1; edition <= EDITION_2 && scales[i].coverage; edition++)
            check_coverage(&at, edition);
        printf("digest     %016" PRIx64 "\n", at.digest);
        printf("digest     %016" PRIx64 " of the listings\n", at.listings_digest);
        printf("digest     %016" PRIx64 " of the moves\n", at.moves_digest);
        printf("digest     %016" PRIx64 " of the comparisons\n", at.compares_digest);
        return 0;
    }
    fprintf(stderr, "usage: test quick|gate|long [coverage|demand3]\n");
    return 2;
}
