/* The streams that are measured, and the random numbers they are made from. */
#ifndef STREAMS_H
#define STREAMS_H

#include <stdbool.h>
#include <stddef.h>
#include <stdint.h>

#include "captured.h"

/* The streams, in the order of their numbers, which begin with 1. */
enum {
    SHORT_FRAMES,
    LONG_HEADERS,
    ESCAPES,
    COUNTED_BODIES,
    TEXT_BODIES,
    CAPTURED_ITEMS,
    HEART_BEATS,
    SMALL_FRAMES,
    ALL_ESCAPES,
    ESCAPES_IN_TEN,
    SHORT_HEADERS,
    SINGLE_ESCAPES,
    CHARACTERS,
    STREAMS
};

struct stream {
    const char *name;
    uint8_t *octets;
    size_t length;
    size_t items;
};

/* Makes the streams, the same ones each time. */
void make_streams(struct stream streams[STREAMS], const struct captured *captured);

/* Makes the beginning of one of them: all items up to the first that ends at `length` octets or after them. */
void make_stream(struct stream *made, size_t s, size_t length, const struct captured *captured);

/* Whether --check asks anything of a stream. Of the small items and the escapes of streams 6 to 10 nothing is
 * asked yet; what stands behind the streams, as the captured clients do in feed, has limits. */
static inline bool has_limits(size_t s)
{
    return s < CAPTURED_ITEMS || s > ESCAPES_IN_TEN;
}

/* The next number of a row that its seed decides. */
uint64_t random_next(uint64_t *seed);

/* A number from `low` to `high`. */
size_t random_between(uint64_t *seed, size_t low, size_t high);

#endif
