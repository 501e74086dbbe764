/* The second program behind the names of hub_kernel.h: a program for the C edge, built with
 * this in place of the archive, says what the second program says. */
#include "second.h"

#include "hub_kernel.h"

hub_kernel_reply hub_kernel_call(uint8_t *table, size_t bytes, uint32_t service, uint32_t caller,
                                 uint32_t target, uint32_t side, uint32_t mode, uint32_t ticks,
                                 uint32_t word, uint32_t high)
{
    const uint32_t call[8] = {service, caller, target, side, mode, ticks, word, high};
    second_reply reply = second_call_bytes(table, bytes, call);

    return (hub_kernel_reply){reply.refusal, reply.answer, reply.next, reply.ahead};
}

hub_kernel_summary_reply hub_kernel_summary(const uint8_t *table, size_t bytes, uint32_t hub)
{
    second_summary_reply reply = second_summary_bytes(table, bytes, hub);

    return (hub_kernel_summary_reply){reply.refusal, reply.mask, reply.count};
}

hub_kernel_listing_reply hub_kernel_listing(const uint8_t *table, size_t bytes, uint8_t *text,
                                            size_t room)
{
    second_listing_reply reply = second_listing_bytes(table, bytes, text, room);

    return (hub_kernel_listing_reply){reply.refusal, reply.length};
}

uint32_t hub_kernel_move_up(const uint8_t *from, size_t from_bytes, uint8_t *to, size_t to_bytes)
{
    return second_move_up_bytes(from, from_bytes, to, to_bytes);
}

uint32_t hub_kernel_move_down(const uint8_t *from, size_t from_bytes, uint8_t *to,
                              size_t to_bytes)
{
    return second_move_down_bytes(from, from_bytes, to, to_bytes);
}

hub_kernel_compare_reply hub_kernel_compare(const uint8_t *first, size_t first_bytes,
                                            const uint8_t *second, size_t second_bytes,
                                            uint32_t *places, size_t words)
{
    second_compare_reply reply = second_compare_bytes(first, first_bytes, second, second_bytes,
                                                      places, words);

    return (hub_kernel_compare_reply){reply.refusal, reply.count};
}
