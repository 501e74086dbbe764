/* Runs a drill call by call through the C edge, on a table that begins as edition 1 and may
 * move: lines of standard input are a call's eight numbers, `up` or `down`. For a call it
 * prints what the drill runner does; for a move its refusal, and goes on in the new table
 * if that is 0. It reads the drills of this repository and is no judge of lines. */
#include <inttypes.h>
#include <stdio.h>
#include <string.h>

#include "hub_kernel.h"

typedef struct {
    uint8_t bytes[HUB_KERNEL_TABLE_BYTES_2];
    size_t length; /* its edition */
} table;

typedef uint32_t (*move)(const uint8_t *from, size_t from_bytes, uint8_t *to, size_t to_bytes);

static void move_to(table *it, const char *way, move moved, size_t length)
{
    table new = {.length = length};
    uint32_t refusal = moved(it->bytes, it->length, new.bytes, new.length);

    printf("moved %s: %" PRIu32 "\n", way, refusal);
    if (refusal == HUB_KERNEL_ACCEPTED)
        *it = new;
}

static int call(table *it, const char *line)
{
    uint32_t n[8];

    if (sscanf(line, "%" SCNu32 " %" SCNu32 " %" SCNu32 " %" SCNu32 " %" SCNu32 " %" SCNu32
               " %" SCNu32 " %" SCNu32, &n[0], &n[1], &n[2], &n[3], &n[4], &n[5], &n[6],
               &n[7]) != 8)
        return 0;
    hub_kernel_reply reply = hub_kernel_call(it->bytes, it->length, n[0], n[1], n[2], n[3], n[4],
                                             n[5], n[6], n[7]);
    printf("%" PRIu32 " %" PRIu32 " %" PRIu32 " %" PRIu32 "\n", reply.refusal, reply.answer,
           reply.next, reply.ahead);
    return 1;
}

int main(void)
{
    table it = {.length = HUB_KERNEL_TABLE_BYTES};
    char line[128];

    while (fgets(line, sizeof line, stdin) != NULL) {
        if (strcmp(line, "up\n") == 0) {
            move_to(&it, "up", hub_kernel_move_up, HUB_KERNEL_TABLE_BYTES_2);
        } else if (strcmp(line, "down\n") == 0) {
            move_to(&it, "down", hub_kernel_move_down, HUB_KERNEL_TABLE_BYTES);
        } else if (!call(&it, line)) {
            fprintf(stderr, "moved: neither a call nor a move: %s", line);
            return 2;
        }
    }
    return 0;
}
