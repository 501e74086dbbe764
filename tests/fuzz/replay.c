/* The calls, moves and comparisons of the files named, through the C edge and through the second
 * program: after every call the reply, every byte of the table, and the summary
 * of a hub, each number in turn up to one above the last; of every move the refusal and
 * every byte of source and destination; of every comparison the reply, every word of the
 * buffer and every byte of both tables. The first difference ends it. */
#include <inttypes.h>
#include <stdio.h>
#include <stdlib.h>
#include <string.h>

#include "calls.h"
#include "hub_kernel.h"
#include "second.h"

typedef struct {
    const char *file;
    uint8_t kernel[BYTES_MOST], second[BYTES_MOST];
    size_t length; /* of both tables: their edition */
    uint8_t kept[BYTES_MOST]; /* the table that the next comparison begins with */
    size_t kept_length;
    uint64_t calls, accepted, refused, moves, moved, compares, compared;
} replay;

static void differ(const replay *at, const char *what)
{
    printf("%s: DIFFER at call %" PRIu64 ": %s\n", at->file, at->calls, what);
    exit(1);
}

static void compare(replay *at, const uint32_t *c)
{
    hub_kernel_reply got = hub_kernel_call(at->kernel, at->length, c[0], c[1], c[2], c[3], c[4], c[5], c[6], c[7]);
    second_reply want = second_call_bytes(at->second, at->length, c);

    at->calls++;
    if (got.refusal != want.refusal || got.answer != want.answer || got.next != want.next || got.ahead != want.ahead)
        differ(at, "the reply");
    if (memcmp(at->kernel, at->second, at->length) != 0)
        differ(at, "the table");
    uint32_t hub = (uint32_t)(at->calls % (HUBS + 1));
    hub_kernel_summary_reply a = hub_kernel_summary(at->kernel, at->length, hub);
    second_summary_reply b = second_summary_bytes(at->second, at->length, hub);
    if (a.refusal != b.refusal || a.mask != b.mask || a.count != b.count)
        differ(at, "a summary");
    if (want.refusal == 0)
        at->accepted++;
    else
        at->refused++;
}

/* To the other edition; both go on there if it is done. The destinations hold the same. */
static void move(replay *at)
{
    int up = at->length == BYTES;
    size_t length = up ? BYTES_2 : BYTES;
    uint8_t kernel[BYTES_MOST], second[BYTES_MOST];

    memset(kernel, 0xA5, sizeof kernel);
    memset(second, 0xA5, sizeof second);
    uint32_t got = (up ? hub_kernel_move_up : hub_kernel_move_down)(at->kernel, at->length, kernel, length);
    uint32_t want = (up ? second_move_up_bytes : second_move_down_bytes)(at->second, at->length, second, length);
    at->moves++;
    if (got != want)
        differ(at, "a move's refusal");
    if (memcmp(kernel, second, sizeof kernel) != 0)
        differ(at, "a move's destination");
    if (memcmp(at->kernel, at->second, at->length) != 0)
        differ(at, "a move's source");
    if (want != ACCEPTED)
        return;
    memcpy(at->kernel, kernel, length);
    memcpy(at->second, second, length);
    at->length = length;
    at->moved++;
}

/* The table kept with this one, which is then kept. Both buffers hold the same before. */
static void compare_kept(replay *at, size_t room)
{
    uint32_t kernel[PLACES_WORDS + BEHIND], second[PLACES_WORDS + BEHIND];
    uint8_t kept[BYTES_MOST];

    memset(kernel, 0xA5, sizeof kernel);
    memset(second, 0xA5, sizeof second);
    memcpy(kept, at->kept, sizeof kept);
    hub_kernel_compare_reply got = hub_kernel_compare(kept, at->kept_length, at->kernel, at->length, kernel, room);
    second_compare_reply want = second_compare_bytes(at->kept, at->kept_length, at->second, at->length, second, room);
    at->compares++;
    if (got.refusal != want.refusal || got.count != want.count)
        differ(at, "a comparison's reply");
    if (memcmp(kernel, second, sizeof kernel) != 0)
        differ(at, "a comparison's buffer");
    if (memcmp(kept, at->kept, sizeof kept) != 0 || memcmp(at->kernel, at->second, at->length) != 0)
        differ(at, "a table compared");
    memcpy(at->kept, at->second, at->length);
    at->kept_length = at->length;
    at->compared += want.refusal == ACCEPTED;
}

static void poke(replay *at, const fuzz_step *step)
{
    size_t place = 4 * (step->place % (at->length / 4));

    for (int i = 0; i < 4; i++)
        at->kernel[place + i] = at->second[place + i] = (uint8_t)(step->value >> 8 * i);
}

static void run(replay *at)
{
    static uint8_t data[1 << 16];
    FILE *in = fopen(at->file, "rb");
    size_t size = in != NULL ? fread(data, 1, sizeof data, in) : 0;

    if (in == NULL) {
        perror(at->file);
        exit(2);
    }
    fclose(in);
    at->length = at->kept_length = BYTES;
    memset(at->kept, 0, sizeof at->kept);
    memset(at->kernel, 0, sizeof at->kernel);
    memset(at->second, 0, sizeof at->second);
    compare(at, fuzz_blank);
    for (size_t place = 0; place + STEP <= size; place += STEP) {
        fuzz_step step = fuzz_step_of(data + place);
        if (step.kind == FUZZ_CALL)
            compare(at, step.call);
        else if (step.kind == FUZZ_MOVE)
            move(at);
        else if (step.kind == FUZZ_COMPARE)
            compare_kept(at, step.room);
        else
            poke(at, &step);
    }
}

int main(int count, char **files)
{
    static replay at;

    for (int i = 1; i < count; i++) {
        at.file = files[i];
        run(&at);
    }
    printf("%d inputs, %" PRIu64 " calls, %" PRIu64 " accepted and %" PRIu64 " refused, %" PRIu64 " moves, %" PRIu64 " done, %" PRIu64
           " comparisons, %" PRIu64 " accepted: every reply, byte and summary the same\n",
           count - 1, at.calls, at.accepted, at.refused, at.moves, at.moved, at.compares, at.compared);
    return 0;
}
