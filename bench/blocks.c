/* Header blocks, written down or made from a seed, and the calls that are tried on them. */
#include "blocks.h"

#include <stdio.h>
#include <string.h>

#include "../include/stomp.h"
#include "buffers.h"
#include "calls.h"
#include "row.h"
#include "streams.h"
#include "written.h"

enum { BLOCK_CASES = 200000 };

static struct row block, body, image;

static void check_written(void)
{
    for (size_t i = 0; i < written_example_count; i++) {
        const struct written_example *e = &written_examples[i];
        block.length = body.length = image.length = 0;
        put_parts(&block, e->input, WRITTEN_PARTS);
        put_parts(&body, e->body, 1);
        put_parts(&image, e->image, WRITTEN_PARTS);
        struct call c = {e->encodes,   e->options,  e->command, block.octets,
                         block.length, body.octets, body.length};
        uint64_t answer = try_call(&c);
        if (stomp_code(answer) != e->code || stomp_index(answer) != e->index ||
            stomp_length(answer) != image.length || memcmp(last_written(), image.octets, image.length) != 0) {
            show_octets(e->what, image.octets, image.length);
            fail_call("wrong answer of a written example", &c);
        }
    }
    printf("%zu written examples of decode and encode have theirs\n", written_example_count);
}

/* What an accepted call wrote is one frame, with the same body and entries, and after these at most the
 * length, which is added only where the body holds octet 0 or the option asks for it. */
static void check_image(const struct call *c, size_t length)
{
    static uint8_t decoded[STOMP_MAX_BLOCK];
    char digits[20];
    uint64_t frame = parsers[BASELINE](last_written(), length);
    if (stomp_parse_kind(frame) != STOMP_FRAME || stomp_parse_used(frame) != length ||
        stomp_parse_command(frame) != c->command || stomp_parse_body_length(frame) != c->body_length ||
        memcmp(last_written() + stomp_parse_body(frame), c->body, c->body_length) != 0)
        fail_call("what is written is not the frame", c);
    size_t used = stomp_length(decoders[BASELINE](last_written(), length, decoded, sizeof decoded));
    if (used != c->input_length) {
        if (!(c->options & STOMP_COUNTED) && !memchr(c->body, 0, c->body_length))
            fail_call("a length is added that is neither needed nor asked for", c);
        int count = snprintf(digits, sizeof digits, "%zu", c->body_length);
        uint8_t head[] = {72, 68, 0, 14, 0, (uint8_t)count};
        put(&block, head, sizeof head);
        put(&block, "content-length", 14);
        put(&block, digits, (size_t)count);
    }
    if (used != block.length || memcmp(decoded, block.octets, used) != 0)
        fail_call("what is written decodes to something else", c);
}

static void put_length(uint8_t *at, size_t n)
{
    at[0] = (uint8_t)(n >> 8);
    at[1] = (uint8_t)n;
}

/* Characters of several octets, in the order of their lengths. */
static const char *const characters[] = {"\xc3\xa9", "\xe2\x82\xac", "\xf0\x9f\x98\x80"};

/* Octets that are plain, now and then one that is escaped or a character of several octets, and seldom any
 * octet, so that the text is not UTF-8. */
static void put_text(size_t length, size_t specials, uint64_t *seed)
{
    static const char special[] = "\n\r:\\";
    size_t end = block.length + length;
    while (block.length < end) {
        size_t octets = random_between(seed, 2, 4);
        uint8_t x = (uint8_t)random_between(seed, 'a', 'z');
        if (specials > 0 && random_between(seed, 0, specials) == 0)
            x = (uint8_t)special[random_between(seed, 0, 3)];
        else if (random_between(seed, 0, 15) == 0 && octets <= end - block.length) {
            put(&block, characters[octets - 2], octets);
            continue;
        } else if (random_between(seed, 0, 511) == 0)
            x = (uint8_t)random_next(seed);
        else if (random_between(seed, 0, 63) == 0)
            x = (uint8_t)random_between(seed, 0, 127);
        put(&block, &x, 1);
    }
}

/* Puts colons in place of some octets from a place on, of those that are characters by themselves. */
static void put_colons(size_t at, uint64_t *seed)
{
    size_t others = random_between(seed, 0, 4);
    for (; at < block.length; at++)
        if (block.octets[at] < 128 && random_between(seed, 0, others) == 0)
            block.octets[at] = ':';
}

/* The value of a content-length: the body's length, perhaps with zeros, or something near it. */
static void put_content_length(uint64_t *seed)
{
    static const char *const others[] = {"", "x", "0x", " ", "65536", "99999999999999999999"};
    char digits[20];
    if (random_between(seed, 0, 7) == 0) {
        put_times(&block, others[random_between(seed, 0, 5)], 1);
        return;
    }
    size_t n = body.length;
    if (random_between(seed, 0, 7) == 0)
        n = random_between(seed, n > 0 ? n - 1 : 0, n + 1);
    if (random_between(seed, 0, 3) == 0)
        put_times(&block, "0", random_between(seed, 1, 3));
    snprintf(digits, sizeof digits, "%zu", n);
    put_times(&block, digits, 1);
}

/* An entry; where there are no escapes, often with colons in its value. */
static void put_entry(bool escapes, uint64_t *seed)
{
    size_t start = block.length;
    size_t value;
    size_t specials = escapes || random_between(seed, 0, 15) == 0 ? random_between(seed, 0, 16) : 0;
    put(&block, "HD\0\0\0\0", 6);
    switch (random_between(seed, 0, 63)) {
    case 0:
        value = block.length + random_between(seed, 0, 1);
        put_text(value - block.length, 0, seed);
        put_text(random_between(seed, 0, 9), 0, seed);
        break;
    case 1:
    case 2:
        put_text(random_between(seed, 1, 255), 0, seed);
        value = block.length;
        put_text(start + 6 + random_between(seed, 508, 513) - value, 0, seed);
        break;
    case 3:
        put_text(random_between(seed, 1, 100), specials, seed);
        value = block.length;
        put_text(random_between(seed, 350, 430), 4, seed);
        break;
    case 4:
        put_text(1, 0, seed);
        value = block.length;
        put_text(random_between(seed, 0, 31) ? 0 : random_between(seed, 500, 65535), 0, seed);
        break;
    case 5:
    case 6:
        put_times(&block, "content-length", 1);
        value = block.length;
        put_content_length(seed);
        break;
    default:
        put_text(random_between(seed, 1, 15), specials, seed);
        value = block.length;
        put_text(random_between(seed, 0, 30), specials, seed);
    }
    if (!escapes && random_between(seed, 0, 1))
        put_colons(value, seed);
    put_length(block.octets + start + 2, value - start - 6);
    put_length(block.octets + start + 4, block.length - value);
}

static void make_body(uint64_t *seed)
{
    body.length = 0;
    switch (random_between(seed, 0, 63)) {
    case 0:
        put_times(&body, "b", random_between(seed, 32764, 32770));
        break;
    case 1:
        put_times(&body, "\n", random_between(seed, 9, 10001));
        break;
    default:
        if (random_between(seed, 0, 1))
            put(&body, "\r\n:\\abcdefghijkl", random_between(seed, 1, 16));
    }
    /* Octet 0 first, last, somewhere, or alone. */
    switch (body.length > 0 ? random_between(seed, 0, 7) : 7) {
    case 0:
        body.octets[0] = 0;
        break;
    case 1:
        body.octets[body.length - 1] = 0;
        break;
    case 2:
        body.octets[random_between(seed, 0, body.length - 1)] = 0;
        break;
    case 3:
        body.length = 0;
        put(&body, "", 1);
        break;
    }
}

/* Blocks of entries that can mostly be written, some near a limit, some damaged. */
static void check_made(uint64_t *seed)
{
    for (size_t i = 0; i < BLOCK_CASES; i++) {
        static const uint32_t with_body[] = {8, 9, 12};
        uint32_t command = (uint32_t)random_between(seed, 1, 15);
        make_body(seed);
        if (body.length > 0 && random_between(seed, 0, 15))
            command = with_body[random_between(seed, 0, 2)];
        if (random_between(seed, 0, 63) == 0)
            command = random_between(seed, 0, 1) ? (uint32_t)random_next(seed) : 16 * (command & 1);
        size_t entries = random_between(seed, 0, 6);
        if (random_between(seed, 0, 15) == 0)
            entries = random_between(seed, 29, 34);
        block.length = 0;
        for (; entries > 0 && block.length < ROOM / 4; entries--)
            put_entry(command != STOMP_COMMAND_CONNECT && command != STOMP_COMMAND_CONNECTED, seed);
        if (block.length > 0 && random_between(seed, 0, 15) == 0)
            damage(&block, seed);
        if (random_between(seed, 0, 63) == 0)
            block.length = random_between(seed, 0, block.length);
        uint32_t options = (uint32_t)random_between(seed, 0, 1);
        if (random_between(seed, 0, 7) == 0)
            options |= (uint32_t)random_next(seed) << 2;
        struct call c = {true, options, command, block.octets, block.length, body.octets, body.length};
        uint64_t answer = try_call(&c);
        if (!stomp_refused(answer))
            check_image(&c, stomp_length(answer));
    }
}

void check_blocks(void)
{
    uint64_t seed = 30;
    check_written();
    check_made(&seed);
}
