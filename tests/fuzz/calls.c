/* libFuzzer's target for the calls, moves and comparisons: the second program against the
 * tests' slow reading (second/expect.c), reply and every word. What it keeps as new ground
 * is replayed through the proved kernel (replay.c). */
#include <stdlib.h>
#include <string.h>

#include "calls.h"
#include "expect.h"
#include "second.h"

typedef struct {
    uint32_t words[WORDS_MOST];
    size_t count;
} table;

static void call(table *it, const uint32_t *numbers)
{
    table wanted = *it;
    second_reply want = expect_call(wanted.words, wanted.count, numbers);
    second_reply reply = second_call(it->words, it->count, numbers);

    if (memcmp(&reply, &want, sizeof reply) != 0 || memcmp(it->words, wanted.words, sizeof it->words) != 0)
        abort();
}

static void move(table *it)
{
    int up = it->count == WORDS;
    table moved = {{0}, up ? WORDS_2 : WORDS}, wanted = moved;
    uint32_t want = expect_move(it->words, it->count, wanted.words, wanted.count);
    uint32_t refusal = (up ? second_move_up : second_move_down)(it->words, it->count, moved.words, moved.count);

    if (refusal != want || memcmp(moved.words, wanted.words, sizeof moved.words) != 0)
        abort();
    if (refusal == ACCEPTED)
        *it = moved;
}

/* The table kept with this one, which is then kept. */
static void compare(table *kept, const table *it, size_t room)
{
    uint32_t places[PLACES_WORDS + BEHIND] = {0}, wanted[PLACES_WORDS + BEHIND] = {0};
    second_compare_reply want = expect_compare(kept->words, kept->count, it->words, it->count, wanted, room);
    second_compare_reply reply = second_compare(kept->words, kept->count, it->words, it->count, places, room);

    if (memcmp(&reply, &want, sizeof reply) != 0 || memcmp(places, wanted, sizeof places) != 0)
        abort();
    *kept = *it;
}

int LLVMFuzzerTestOneInput(const uint8_t *data, size_t size);

int LLVMFuzzerTestOneInput(const uint8_t *data, size_t size)
{
    table it = {{0}, WORDS}, kept = it;

    second_call(it.words, it.count, fuzz_blank);
    for (; size >= STEP; data += STEP, size -= STEP) {
        fuzz_step step = fuzz_step_of(data);
        if (step.kind == FUZZ_CALL)
            call(&it, step.call);
        else if (step.kind == FUZZ_MOVE)
            move(&it);
        else if (step.kind == FUZZ_COMPARE)
            compare(&kept, &it, step.room);
        else
            it.words[step.place % it.count] = step.value;
    }
    return 0;
}
