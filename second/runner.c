/* The drill runner's reader and printer; runner.h says what it is for. */
#include "runner.h"

#include <string.h>

#include "second.h"

void runner_begin(runner *run, FILE *out)
{
    memset(run->table, 0, sizeof run->table);
    run->number = 0;
    run->length = 0;
    run->out = out;
}

static int is_digit(uint8_t byte) { return byte >= '0' && byte <= '9'; }

/* One decimal number without leading zeros at *at; moves *at behind it. */
static int read_number(const uint8_t **at, const uint8_t *end, uint32_t *number)
{
    const uint8_t *digit = *at;
    uint64_t value = 0;

    while (digit < end && is_digit(*digit) && value <= UINT32_MAX)
        value = value * 10 + (uint64_t)(*digit++ - '0');
    if (digit == *at || value > UINT32_MAX || (**at == '0' && digit - *at > 1))
        return 0;
    *at = digit;
    *number = (uint32_t)value;
    return 1;
}

/* LINE_NUMBERS numbers, one space between, nothing else. */
static int read_call(const uint8_t *line, size_t length, uint32_t call[CALL_NUMBERS])
{
    const uint8_t *at = line, *end = line + length;

    if (length > LINE_MAX_BYTES)
        return 0;
    for (int i = 0; i < LINE_NUMBERS; i++) {
        if (i > 0 && (at == end || *at++ != ' '))
            return 0;
        if (!read_number(&at, end, &call[i]))
            return 0;
    }
    return at == end;
}

static void end_line(runner *run)
{
    uint32_t call[CALL_NUMBERS];

    run->number++;
    if (read_call(run->line, run->length, call)) {
        second_reply reply = second_call(run->table, RUNNER_WORDS, call);
        fprintf(run->out, "%lu %lu %lu %lu\n", (unsigned long)reply.refusal,
                (unsigned long)reply.answer, (unsigned long)reply.next,
                (unsigned long)reply.ahead);
    } else {
        fprintf(run->out, "line %llu bad\n", (unsigned long long)run->number);
    }
    run->length = 0;
}

/* Of an overlong line only the fact is kept: its first 91 bytes. */
static void keep(runner *run, const uint8_t *bytes, size_t length)
{
    size_t room = sizeof run->line - run->length;
    size_t kept = length < room ? length : room;

    memcpy(run->line + run->length, bytes, kept);
    run->length += kept;
}

void runner_feed(runner *run, const uint8_t *block, size_t length)
{
    const uint8_t *end = block + length;

    for (;;) {
        const uint8_t *newline = memchr(block, '\n', (size_t)(end - block));
        keep(run, block, (size_t)((newline ? newline : end) - block));
        if (!newline)
            return;
        end_line(run);
        block = newline + 1;
    }
}

void runner_end(runner *run)
{
    if (run->length > 0)
        end_line(run);
}
