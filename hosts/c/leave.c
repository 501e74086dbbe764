/* A panel that leaves its table in files: before a step and after it, for ./compare. A table is
 * bytes that mean the same on every machine (words little-endian), so a file of it is just these
 * bytes, 2,976 of edition 2 or 2,400 of edition 1, and nothing else: what `./drill --leave`
 * leaves, `./drill --from`, ./listing and ./compare read.
 *
 * usage: leave BEFORE AFTER */
#include <stdio.h>
#include <stdlib.h>

#include "hub_kernel.h"

enum { CHECKLIST, DRIVE };      /* the tasks, in the order they are added */
enum { FAN, ORDERS };           /* the hubs likewise */
enum { RUN = 3, SPEED = 1480 }; /* an order: what to do (high word), turns a minute (low word) */

typedef struct {
    uint8_t bytes[HUB_KERNEL_TABLE_BYTES_2];
} table;

/* Written to a file of its own, which takes the name only when all bytes are in it: whoever reads
 * the old file at that moment sees a whole table. Between two calls only, never during one. */
static int leave(const table *it, const char *name)
{
    char beside[4096];
    int length = snprintf(beside, sizeof beside, "%s.new", name);
    FILE *file = length > 0 && (size_t)length < sizeof beside ? fopen(beside, "wb") : NULL;

    if (file == NULL)
        return 0;
    int whole = fwrite(it->bytes, 1, sizeof it->bytes, file) == sizeof it->bytes;
    whole = fclose(file) == 0 && whole;
    if (whole && rename(beside, name) == 0)
        return 1;
    remove(beside);
    return 0;
}

/* What this host asks for is never refused: if it is, the host is wrong. */
static void call(table *it, uint32_t service, uint32_t caller, uint32_t target, uint32_t side,
                 uint32_t mode, uint32_t ticks, uint32_t word, uint32_t high)
{
    hub_kernel_reply reply = hub_kernel_call(it->bytes, sizeof it->bytes, service, caller, target,
                                             side, mode, ticks, word, high);

    if (reply.refusal != HUB_KERNEL_ACCEPTED)
        abort();
}

/* The checklist has locked the fan, and the drive waits for an order, at most 5 ticks. */
static void set_up(table *it)
{
    call(it, HUB_KERNEL_BLANK, 0, 0, 0, 0, 0, 0, 0);
    call(it, HUB_KERNEL_ADD_HUB, 0, HUB_KERNEL_RESOURCE, 0, 0, 1, 0, 0);
    call(it, HUB_KERNEL_ADD_HUB, 0, HUB_KERNEL_FIFO, 0, 0, 2, 0, 0);
    call(it, HUB_KERNEL_ADD_TASK, 0, 20, 1, 0, 0, 0, 0);
    call(it, HUB_KERNEL_HUB_REQUEST, CHECKLIST, FAN, HUB_KERNEL_GET, HUB_KERNEL_W, 0, 0, 0);
    call(it, HUB_KERNEL_ADD_TASK, 0, 10, 1, 0, 0, 0, 0);
    call(it, HUB_KERNEL_HUB_REQUEST, DRIVE, ORDERS, HUB_KERNEL_GET, HUB_KERNEL_WT, 5, 0, 0);
}

int main(int count, char **words)
{
    static table it;

    if (count != 3) {
        fprintf(stderr, "usage: leave BEFORE AFTER\n");
        return 2;
    }
    set_up(&it);
    if (!leave(&it, words[1])) {
        perror(words[1]);
        return 1;
    }
    call(&it, HUB_KERNEL_HUB_REQUEST, CHECKLIST, ORDERS, HUB_KERNEL_PUT, HUB_KERNEL_NW, 0, SPEED,
         RUN);
    if (!leave(&it, words[2])) {
        perror(words[2]);
        return 1;
    }
    return 0;
}
