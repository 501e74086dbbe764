/* The proved rows (hub_kernel_rows) on random pairs of tables of both editions:
 *
 *   the text, its length and the number of marked rows are those of the second reading (rows.c),
 *   byte for byte, into just enough room, into more, and refused with 8 into less; no byte
 *   besides is written;
 *   what hub_kernel_compare (M-106) says and what is marked agree: the place of every entry lies
 *   in a row that is shown and marked; a marked row has an entry in it, but for the four cases
 *   that `text_alone` names;
 *   the row of a priority is marked where the effective one differs, which is worked out here;
 *   a marked row's two texts differ, but for what `words_alone` names; an unmarked row's are equal;
 *   refused pairs are refused with the comparison's number.
 *
 * In which row a place lies is written down here once more, from the papers: neither rows.c nor
 * numbers.h has a say in it. `pairs N` draws N pairs and more; the first failure ends it. */
#include <inttypes.h>
#include <stdio.h>
#include <stdlib.h>
#include <string.h>

#include "gen.h"
#include "hub_kernel.h"
#include "hub_kernel_rows.h"
#include "numbers.h"
#include "rows.h"
#include "second.h"

enum { AROUND = 64, WATCHED = 0xA5 };

typedef enum {
    NEIGHBOURS, STEPS, MET, UNRELATED, SET_UPS, APART, LAST_WORD, ONE_WORD, SAME, FAMILIES
} family;

static const char *const family_names[FAMILIES] = {
    "neighbours of a run", "a few calls apart", "many met in one call", "unrelated", "set-ups",
    "apart everywhere",    "last word alone",   "one message changed",  "a table with itself"};

typedef struct {
    uint8_t first[BYTES_MOST + 4], second[BYTES_MOST + 4];
    size_t first_length, second_length;
} pair;

typedef struct {
    gen_random random;
    const layout *form;
    uint32_t run[WORDS_MOST]; /* the run whose neighbours are compared */
    gen_mood mood;
    uint32_t calls;
    family family;
    uint64_t number, drawn[EDITIONS][FAMILIES], refusals[14], equal, marked, entries;
    uint64_t by_text; /* marked rows without an entry */
    uint64_t lent;    /* of them those of a priority whose effective one differs */
} state;

static void fail(const state *at, const char *what)
{
    fprintf(stderr, "pair %" PRIu64 ", edition %" PRIu32 ", %s: %s\n", at->number,
            at->form->edition, family_names[at->family], what);
    exit(1);
}

/* ---- The rows by number: 0 contents, 1 ready list, three for each task, three for each hub -- */

enum { CONTENTS, READY_LIST, TASK_ROWS, HUB_ROWS = TASK_ROWS + 3 * 16, ROWS = HUB_ROWS + 3 * 16 };

/* Document 01's table and task record; M-105's, where the high word comes after the low one. */
static int row_of(uint32_t edition, uint32_t place)
{
    static const int in_task_1[8] = {0, 0, 1, 0, 0, 0, 2, 2};
    static const int in_task_2[9] = {0, 0, 1, 0, 0, 0, 2, 2, 2};
    static const int in_hub[4] = {0, 1, 0, 0};

    if (place < 8)
        return CONTENTS;
    if (edition == 1) {
        if (place < 136)
            return TASK_ROWS + 3 * (int)((place - 8) / 8) + in_task_1[(place - 8) % 8];
        if (place < 200)
            return HUB_ROWS + 3 * (int)((place - 136) / 4) + in_hub[(place - 136) % 4];
        if (place < 216)
            return READY_LIST;
        if (place < 472)
            return HUB_ROWS + 3 * (int)((place - 216) / 16) + 2;
        return HUB_ROWS + 3 * (int)((place - 472) / 8) + 1;
    }
    if (place < 152)
        return TASK_ROWS + 3 * (int)((place - 8) / 9) + in_task_2[(place - 8) % 9];
    if (place < 216)
        return HUB_ROWS + 3 * (int)((place - 152) / 4) + in_hub[(place - 152) % 4];
    if (place < 232)
        return READY_LIST;
    if (place < 488)
        return HUB_ROWS + 3 * (int)((place - 232) / 16) + 2;
    return HUB_ROWS + 3 * (int)((place - 488) / 16) + 1;
}

/* The word at a place. */
static uint32_t word(const uint8_t *table, uint32_t place)
{
    const uint8_t *at = table + 4 * place;

    return at[0] | (uint32_t)at[1] << 8 | (uint32_t)at[2] << 16 | (uint32_t)at[3] << 24;
}

/* ---- The text, read -------------------------------------------------------- */

typedef struct {
    int shown, marked, in_one_only; /* in one only: a cell says `not in use` */
    const char *left, *right;
    size_t left_length, right_length;
    int entry; /* some entry of the comparison lies in it */
} row;

static int same(const char *text, size_t length, const char *word)
{
    return length == strlen(word) && memcmp(text, word, length) == 0;
}

/* The row of a subject and what it says of it, or -1. */
static int numbered(const char *subject, size_t length, const char *what, size_t what_length)
{
    static const char *const of_table[] = {"contents", "ready list", NULL};
    static const char *const of_task[] = {"state", "priority", "answer", NULL};
    static const char *const of_hub[] = {"kind", "holds", "waiting", NULL};
    const char *const *of = of_table;
    char name[16];
    int base = -1;

    if (same(subject, length, "table"))
        base = CONTENTS;
    for (int i = 0; base < 0 && i < 16; i++) {
        sprintf(name, "task %d", i);
        if (same(subject, length, name))
            base = TASK_ROWS + 3 * i, of = of_task;
        sprintf(name, "hub %d", i);
        if (same(subject, length, name))
            base = HUB_ROWS + 3 * i, of = of_hub;
    }
    for (int i = 0; base >= 0 && of[i] != NULL; i++)
        if (same(what, what_length, of[i]))
            return base + i;
    return -1;
}

static const char *field(const state *at, const char **text, const char *end, char behind,
                         size_t *length)
{
    const char *start = *text, *stop = memchr(start, behind, (size_t)(end - start));

    if (stop == NULL)
        fail(at, "a line that is no row");
    *length = (size_t)(stop - start);
    *text = stop + 1;
    return start;
}

/* Every line into the row that it is; they come in the order of their numbers. */
static void read_rows(const state *at, const uint8_t *text, size_t length, row rows[ROWS])
{
    const char *next = (const char *)text, *end = next + length;
    int last = -1;

    memset(rows, 0, ROWS * sizeof *rows);
    while (next < end) {
        size_t mark, subject, what, left, right;
        const char *marks = field(at, &next, end, '\t', &mark);
        const char *subjects = field(at, &next, end, '\t', &subject);
        const char *whats = field(at, &next, end, '\t', &what);
        const char *lefts = field(at, &next, end, '\t', &left);
        const char *rights = field(at, &next, end, '\n', &right);
        int number = numbered(subjects, subject, whats, what);

        if (mark != 1 || (*marks != '=' && *marks != '!'))
            fail(at, "a mark that is none");
        if (number <= last)
            fail(at, "a row that isn't one, or not in order");
        last = number;
        rows[number] = (row){1, *marks == '!',
                             same(lefts, left, "not in use") != same(rights, right, "not in use"),
                             lefts, rights, left, right, 0};
    }
}

/* M-108, the effective priority of each task: the smallest among its own and those of all who wait
 * for it, directly or through others, of which all pairs are laid out, from the waiting lists. */
static void effective(uint32_t edition, const uint8_t *table, uint32_t least[16])
{
    uint32_t size = edition == 1 ? 8 : 9, hubs = edition == 1 ? 136 : 152, lists = hubs + 80;
    int waits[16][16] = {{0}}; /* the first waits for the second */

    for (uint32_t hub = 0; hub < 16; hub++)
        for (uint32_t i = 0; i < 16; i++) {
            uint32_t kind = word(table, hubs + 4 * hub), owner = word(table, hubs + 4 * hub + 1);
            uint32_t waiter = word(table, lists + 16 * hub + i);
            if (kind == 5 && owner != 0 && waiter != 0)
                waits[waiter - 1][owner - 1] = 1;
        }
    for (int via = 0; via < 16; via++)
        for (int i = 0; i < 16; i++)
            for (int j = 0; j < 16; j++)
                waits[i][j] |= waits[i][via] && waits[via][j];
    for (uint32_t j = 0; j < 16; j++) {
        least[j] = word(table, 8 + size * j + 2);
        for (uint32_t i = 0; i < 16; i++)
            if (waits[i][j] && word(table, 8 + size * i + 2) < least[j])
                least[j] = word(table, 8 + size * i + 2);
    }
}

/* Whether the row is the priority of a task that both tables use, with another effective one. */
static int lent_apart(const row rows[ROWS], int number, const uint32_t lent[2][16])
{
    int task = (number - TASK_ROWS) / 3;

    return number >= TASK_ROWS && number < HUB_ROWS && (number - TASK_ROWS) % 3 == 1 &&
           !rows[number].in_one_only && lent[0][task] != lent[1][task];
}

/* A row that is marked though none of its words differs: its texts do, because a word differs
 * elsewhere. The ready list, where a task is suspended in one table alone, which changes who runs;
 * a task's priority, where its effective one differs; what a hub holds, where it is of another kind
 * in each table; any row of a task or hub that one table doesn't use, whose state or kind is 0
 * there. */
static int text_alone(const row rows[ROWS], int number, const uint32_t lent[2][16])
{
    int suspended = 0, subject = number - (number - TASK_ROWS) % 3;

    for (int i = TASK_ROWS; i < HUB_ROWS; i += 3)
        suspended |= rows[i].entry;
    if (number < TASK_ROWS)
        return number == READY_LIST && suspended;
    if (lent_apart(rows, number, lent))
        return 1;
    return rows[subject].entry &&
           (rows[number].in_one_only || (number >= HUB_ROWS && number == subject + 1));
}

/* Whether a marked row may have two equal texts: what two Memory hubs hold, of other limits: the
 * same blocks are out, and others are free. The limits are in the row before. */
static int words_alone(const row rows[ROWS], int number)
{
    const row *kind = &rows[number - 1];

    return number >= HUB_ROWS && (number - HUB_ROWS) % 3 == 1 && kind->marked && kind->entry &&
           kind->left_length > 6 && memcmp(kind->left, "Memory", 6) == 0 &&
           kind->right_length > 6 && memcmp(kind->right, "Memory", 6) == 0;
}

static void check_rows(state *at, const pair *of, row rows[ROWS], const uint32_t *places,
                       uint32_t count)
{
    /* the tables' own: a spoiled pair may be one of the other edition, and accepted */
    uint32_t edition = word(of->first, 0), lent[2][16];

    effective(edition, of->first, lent[0]);
    effective(edition, of->second, lent[1]);
    for (uint32_t i = 0; i < count; i++) {
        row *in = &rows[row_of(edition, places[3 * i])];
        if (!in->shown || !in->marked)
            fail(at, "a word differs in a row that isn't marked");
        in->entry = 1;
    }
    for (int i = 0; i < ROWS; i++) {
        const row *it = &rows[i];
        if (!it->shown)
            continue;
        int equal = it->left_length == it->right_length &&
                    memcmp(it->left, it->right, it->left_length) == 0;
        if (it->marked && equal && !words_alone(rows, i))
            fail(at, "a marked row whose two texts are equal");
        if (!it->marked && !equal)
            fail(at, "a row that isn't marked, and two texts");
        if (it->marked && !it->entry && !text_alone(rows, i, lent))
            fail(at, "a marked row without a word that differs");
        if (!it->marked && lent_apart(rows, i, lent))
            fail(at, "another effective priority in a row that isn't marked");
        at->by_text += it->marked && !it->entry;
        at->lent += it->marked && !it->entry && lent_apart(rows, i, lent);
    }
}

/* ---- A pair ---------------------------------------------------------------- */

static int untouched(const uint8_t *bytes, size_t length)
{
    for (size_t i = 0; i < length; i++)
        if (bytes[i] != WATCHED)
            return 0;
    return 1;
}

/* The proved text into a buffer of so much room; every byte that isn't its own is watched. */
static hub_kernel_rows_reply proved(const state *at, const pair *of, uint8_t *buffer, size_t room)
{
    pair before = *of;

    memset(buffer, WATCHED, AROUND + ROWS_MOST + AROUND);
    hub_kernel_rows_reply reply = hub_kernel_rows(of->first, of->first_length, of->second,
                                                  of->second_length, buffer + AROUND, room);
    if (!untouched(buffer, AROUND) ||
        !untouched(buffer + AROUND + reply.length, ROWS_MOST - reply.length + AROUND))
        fail(at, "a byte outside of the text is written");
    if (memcmp(&before, of, sizeof before) != 0)
        fail(at, "a byte of a table is written");
    return reply;
}

static void check_reply(const state *at, hub_kernel_rows_reply said, rows_reply wanted)
{
    if (said.refusal != wanted.refusal)
        fail(at, "another refusal");
    if (said.length != wanted.length || said.marked != wanted.marked)
        fail(at, "another length, or number of marked rows");
}

static void check_pair(state *at, const pair *of)
{
    static uint8_t wanted[ROWS_MOST], buffer[AROUND + ROWS_MOST + AROUND];
    static uint32_t places[HUB_KERNEL_COMPARE_WORDS_2];
    static row rows[ROWS];
    rows_reply second = rows_write(of->first, of->first_length, of->second, of->second_length,
                                   wanted, sizeof wanted);
    hub_kernel_compare_reply entries = hub_kernel_compare(of->first, of->first_length, of->second,
                                                          of->second_length, places,
                                                          HUB_KERNEL_COMPARE_WORDS_2);
    size_t room = gen_chance(&at->random, 50) ? second.length : ROWS_MOST;

    at->number++;
    check_reply(at, proved(at, of, buffer, room), second);
    if (memcmp(buffer + AROUND, wanted, second.length) != 0)
        fail(at, "another text");
    if (second.refusal != entries.refusal)
        fail(at, "another refusal than the comparison's");
    at->refusals[second.refusal]++;
    if (second.refusal != ACCEPTED)
        return;
    if ((second.marked == 0) != (entries.count == 0))
        fail(at, "no row marked and words that differ, or the other way round");
    read_rows(at, buffer + AROUND, second.length, rows);
    check_rows(at, of, rows, places, entries.count);
    at->equal += entries.count == 0;
    at->marked += second.marked;
    at->entries += entries.count;
    if (at->number % 8 == 0) {
        size_t less = gen_chance(&at->random, 50) ? second.length - 1
                                                  : gen_below(&at->random, second.length);
        check_reply(at, proved(at, of, buffer, less), (rows_reply){SHORT_BUFFER, 0, 0});
        at->refusals[SHORT_BUFFER]++;
    }
}

/* ---- Draws ----------------------------------------------------------------- */

static void to_bytes(uint8_t *bytes, const uint32_t *words, size_t count)
{
    for (size_t i = 0; i < 4 * count; i++)
        bytes[i] = (uint8_t)(words[i / 4] >> 8 * (i % 4));
}

static pair pair_of(const uint32_t *first, size_t first_words, const uint32_t *second,
                    size_t second_words)
{
    pair of = {{0}, {0}, 4 * first_words, 4 * second_words};

    to_bytes(of.first, first, first_words);
    to_bytes(of.second, second, second_words);
    return of;
}

static void draw_mood(state *at, gen_mood *mood)
{
    gen_draw_mood(&at->random, mood);
    mood->high = at->form->edition == EDITION_2 ? 40 : 0;
}

/* One call further in the run at hand; after some hundred calls a new run. */
static void next_of_run(state *at)
{
    uint32_t call[CALL_NUMBERS];

    if (at->run[EDITION_AT] != at->form->edition || at->calls-- == 0) {
        memset(at->run, 0, sizeof at->run);
        draw_mood(at, &at->mood);
        at->calls = 100 + gen_below(&at->random, 300);
    }
    if (at->calls % 64 == 0)
        gen_turn(&at->random, &at->mood);
    gen_call(&at->random, &at->mood, at->run, call);
    second_call(at->run, at->form->words, call);
}

/* A table, and a call that meets many at once, or after which many have another effective priority. */
static void draw_met(state *at, uint32_t *first, uint32_t call[CALL_NUMBERS])
{
    switch (gen_below(&at->random, 4)) {
    case 0:
        gen_stop(&at->random, at->form->edition, first, call);
        break;
    case 1:
        gen_board(&at->random, at->form->edition, first, call);
        break;
    case 2:
        gen_chain(&at->random, at->form->edition, first, call);
        break;
    default:
        gen_queue(&at->random, at->form->edition, first, call);
    }
}

static void draw_steps(state *at, uint32_t *second)
{
    uint32_t call[CALL_NUMBERS];
    gen_mood mood;

    draw_mood(at, &mood);
    mood.tasks = mood.hubs = gen_chance(&at->random, 20) ? TASKS : 0;
    for (uint32_t calls = 1 + gen_below(&at->random, 3); calls > 0; calls--) {
        gen_call(&at->random, &mood, second, call);
        second_call(second, at->form->words, call);
    }
}

static void draw_two(state *at, uint32_t *first, uint32_t *second)
{
    uint32_t edition = at->form->edition, call[CALL_NUMBERS];
    size_t bytes = at->form->words * sizeof *first;

    gen_table(&at->random, edition, first);
    memcpy(second, first, bytes);
    switch (at->family) {
    case NEIGHBOURS:
        do
            next_of_run(at);
        while (at->run[EDITION_AT] != edition);
        memcpy(first, at->run, bytes);
        next_of_run(at);
        memcpy(second, at->run, bytes);
        break;
    case STEPS:
        draw_steps(at, second);
        break;
    case MET:
        draw_met(at, first, call);
        memcpy(second, first, bytes);
        second_call(second, at->form->words, call);
        break;
    case UNRELATED:
        gen_table(&at->random, edition, second);
        break;
    case SET_UPS:
        gen_set_up(&at->random, edition, first);
        gen_set_up(&at->random, edition, second);
        break;
    case APART:
        gen_apart(&at->random, edition, first, second);
        break;
    case LAST_WORD:
        gen_last_word(&at->random, edition, first, second);
        break;
    case ONE_WORD:
        gen_one_word(&at->random, second);
        break;
    default:
        break;
    }
}

/* One of them, or both, damaged, of the other edition, or of another length. */
static void check_spoiled(state *at, uint32_t *first, uint32_t *second)
{
    static const size_t lengths[] = {0,    1,    4,    600,  744,  2396, 2399, 2400,
                                     2401, 2404, 2972, 2975, 2976, 2977, 2980};
    const layout *other = &layouts[at->form->edition % EDITIONS];
    const layout *form = gen_chance(&at->random, 40) ? other : at->form;
    uint32_t damage = gen_below(&at->random, (uint32_t)gen_damages(EDITION_1));

    if (form != at->form)
        gen_table(&at->random, form->edition, second);
    if (gen_chance(&at->random, 30))
        gen_damaged(&at->random, at->form->edition, damage, first);
    if (gen_chance(&at->random, 30))
        gen_damaged(&at->random, form->edition, damage, second);
    pair of = pair_of(first, at->form->words, second, form->words);
    if (gen_chance(&at->random, 15))
        of.first_length = lengths[gen_below(&at->random, sizeof lengths / sizeof *lengths)];
    if (gen_chance(&at->random, 15))
        of.second_length = lengths[gen_below(&at->random, sizeof lengths / sizeof *lengths)];
    check_pair(at, &of);
}

/* Of a hundred pairs forty are neighbours; `below` has the others' shares, added up. */
static family drawn_family(state *at)
{
    uint32_t draw = gen_below(&at->random, 100);
    static const uint32_t below[FAMILIES] = {40, 55, 65, 78, 86, 88, 90, 98, 100};

    for (int i = 0; i < FAMILIES; i++)
        if (draw < below[i])
            return (family)i;
    return SAME;
}

static void report(const state *at, uint64_t accepted)
{
    printf("pairs      %" PRIu64 " accepted, %" PRIu64 " of them equal; %" PRIu64
           " marked rows, %" PRIu64 " of them by their texts alone, of these %" PRIu64
           " by an effective priority; %" PRIu64 " words differ, each in a marked row\n",
           accepted, at->equal, at->marked, at->by_text, at->lent, at->entries);
    printf("           refused with 1, 2, 8, 13: %" PRIu64 ", %" PRIu64 ", %" PRIu64 ", %" PRIu64
           "\n",
           at->refusals[BAD_LENGTH], at->refusals[NOT_WELL_FORMED], at->refusals[SHORT_BUFFER],
           at->refusals[DIFFERING_EDITIONS]);
    for (int i = 0; i < FAMILIES; i++)
        printf("           %-22s %" PRIu64 " of edition 1, %" PRIu64 " of edition 2\n",
               family_names[i], at->drawn[0][i], at->drawn[1][i]);
}

int main(int count, char **words)
{
    static state at;
    uint32_t first[WORDS_MOST], second[WORDS_MOST];
    uint64_t wanted = count == 2 ? strtoull(words[1], NULL, 10) : 0;

    if (wanted == 0) {
        fprintf(stderr, "usage: pairs N\n");
        return 2;
    }
    gen_seed(&at.random, 18);
    while (at.refusals[ACCEPTED] < wanted) {
        at.form = &layouts[at.number / 512 % EDITIONS];
        at.family = drawn_family(&at);
        draw_two(&at, first, second);
        pair of = pair_of(first, at.form->words, second, at.form->words);
        check_pair(&at, &of);
        at.drawn[at.form->edition - 1][at.family]++;
        if (at.number % 3 == 0)
            check_spoiled(&at, first, second);
    }
    report(&at, at.refusals[ACCEPTED]);
    for (int i = 0; i < FAMILIES; i++)
        if (wanted >= 10000 && (at.drawn[0][i] < 50 || at.drawn[1][i] < 50))
            fail(&at, "a family was drawn too seldom");
    if (!at.refusals[BAD_LENGTH] || !at.refusals[NOT_WELL_FORMED] || !at.refusals[SHORT_BUFFER] ||
        !at.refusals[DIFFERING_EDITIONS] || !at.equal || !at.by_text ||
        !at.lent)
        fail(&at, "a refusal, an equal pair or a row marked by its texts never came up");
    return 0;
}
