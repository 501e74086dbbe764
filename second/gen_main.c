/* `gen drills SEED N` prints N drill lines, one in ten damaged; `gen expected
 * SEED N` what a drill runner prints for them. The second needs no line reader:
 * the generator knows which lines are good and what calls they hold. The table
 * between the lines is expect.c's, so that neither kernel has a say in it.
 * `gen listings SEED N` prints the listings of N drawn tables, of edition 1 and 2 in turn,
 * expect.c's too. */
#include <errno.h>
#include <inttypes.h>
#include <stdio.h>
#include <stdlib.h>
#include <string.h>

#include "expect.h"
#include "gen.h"
#include "numbers.h"

enum { LINES_PER_TURN = 64, LINES_PER_RUN = 2000 };

static void print_reply(uint64_t number, int good, second_reply reply)
{
    if (good)
        printf("%" PRIu32 " %" PRIu32 " %" PRIu32 " %" PRIu32 "\n", reply.refusal, reply.answer,
               reply.next, reply.ahead);
    else
        printf("line %" PRIu64 " bad\n", number);
}

static void draw_mood(gen_random *random, gen_mood *mood)
{
    gen_draw_mood(random, mood);
    mood->high = 40;
}

static void print_lines(uint64_t seed, uint64_t count, int expected)
{
    uint32_t table[RUNNER_WORDS] = {0}, call[CALL_NUMBERS];
    uint8_t line[GEN_LINE_MAX];
    second_reply reply = {0, 0, 0, 0};
    gen_random random;
    gen_mood mood;
    int good;

    gen_seed(&random, seed);
    for (uint64_t number = 1; number <= count; number++) {
        if (number % LINES_PER_RUN == 1)
            draw_mood(&random, &mood);
        else if (number % LINES_PER_TURN == 0)
            gen_turn(&random, &mood);
        size_t length = gen_drill_line(&random, &mood, table, line, call, &good);
        if (good)
            reply = expect_call(table, RUNNER_WORDS, call);
        if (expected) {
            print_reply(number, good, reply);
        } else {
            fwrite(line, 1, length, stdout);
            putchar('\n');
        }
    }
}

static void print_listings(uint64_t seed, uint64_t count)
{
    uint32_t table[WORDS_MOST];
    uint8_t text[LISTING_MOST];
    gen_random random;

    gen_seed(&random, seed);
    for (uint64_t i = 0; i < count; i++) {
        const layout *of = &layouts[i % EDITIONS];
        gen_set_up(&random, of->edition, table);
        fwrite(text, 1, expect_listing(table, of->words, text, sizeof text).length, stdout);
    }
}

static int number_from(const char *word, uint64_t *number)
{
    char *end;

    errno = 0;
    *number = strtoull(word, &end, 10);
    return errno == 0 && *word >= '0' && *word <= '9' && *end == '\0';
}

int main(int count, char **words)
{
    uint64_t seed, lines;
    int drills = count == 4 && strcmp(words[1], "drills") == 0;
    int expected = count == 4 && strcmp(words[1], "expected") == 0;
    int listings = count == 4 && strcmp(words[1], "listings") == 0;

    if (!(drills || expected || listings) || !number_from(words[2], &seed) ||
        !number_from(words[3], &lines)) {
        fprintf(stderr, "usage: gen drills|expected|listings SEED N\n");
        return 2;
    }
    if (listings)
        print_listings(seed, lines);
    else
        print_lines(seed, lines, expected);
    return fflush(stdout) == 0 && !ferror(stdout) ? 0 : 1;
}
