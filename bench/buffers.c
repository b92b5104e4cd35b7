/* Compares what decode and encode answer and leave in buffers of several lengths with the baseline. */
#include "buffers.h"

#include <stdio.h>
#include <stdlib.h>
#include <string.h>

#include "../include/stomp.h"
#include "calls.h"
#include "guard.h"
#include "row.h"
#include "streams.h"

/* Octets in front of a buffer, which must stay as they are too; what a refusing call is given; how
 * many places the fill of a buffer may begin at. */
enum { FRONT = 64, ROOMY = 4096, FILLS = 251 };
enum { LEAST_OF_EACH = 200 };

/* How often decode, and then encode, gave each number; 0 is none. */
enum { NUMBERS = 57 };
static unsigned long tally[2][NUMBERS];
static unsigned long cases[2];

/* The ends of the rooms for the input, the body and the buffer that is written. */
static uint8_t *input_end, *body_end, *buffer_end;

/* What a buffer holds before a call: these octets from some place on. */
static uint8_t fill[FILLS + FRONT + ROOM];
static const uint8_t *filled = fill;

static uint8_t written[ROOM];
static uint64_t seed = 21;

void make_buffers(void)
{
    input_end = guarded_end();
    body_end = guarded_end();
    buffer_end = guarded_end();
    for (size_t i = 0; i < sizeof fill; i++)
        fill[i] = (uint8_t)random_next(&seed);
}

const uint8_t *last_written(void)
{
    return written;
}

static uint64_t run(size_t who, const struct call *c, uint8_t *buffer, size_t length)
{
    const uint8_t *input = input_end - c->input_length;
    if (!c->encodes)
        return decoders[who](input, c->input_length, buffer, length);
    const uint8_t *body = body_end - c->body_length;
    if (who == OURS && c->options == 0)
        return stomp_encode(c->command, input, c->input_length, body, c->body_length, buffer, length);
    return encoders[who](c->options, c->command, input, c->input_length, body, c->body_length, buffer,
                         length);
}

static void lay_out(const struct call *c)
{
    at_end(input_end, c->input, c->input_length);
    at_end(body_end, c->body, c->body_length);
}

void fail_call(const char *what, const struct call *c)
{
    static uint8_t buffer[STOMP_MAX_FRAME];
    fflush(stdout);
    fprintf(stderr, "bench: %s: %s\n", c->encodes ? "encode" : "decode", what);
    lay_out(c);
    for (size_t who = 0; who < COMPARED; who++) {
        uint64_t answer = run(who, c, buffer, sizeof buffer);
        fprintf(stderr, "  %-16s length %zu, code %u, index %zu\n", names[who], stomp_length(answer),
                stomp_code(answer), stomp_index(answer));
    }
    if (c->encodes)
        fprintf(stderr, "  options %lu, command %lu\n", (unsigned long)c->options,
                (unsigned long)c->command);
    show_octets(c->encodes ? "the block" : "the frame", c->input, c->input_length);
    if (c->encodes)
        show_octets("the body", c->body, c->body_length);
    exit(1);
}

static uint8_t *fresh_buffer(size_t length)
{
    uint8_t *buffer = buffer_end - length;
    memcpy(buffer - FRONT, filled, FRONT + length);
    return buffer;
}

/* Whether all that the answer does not speak of is as it was. */
static bool is_kept(const struct call *c, const uint8_t *buffer, size_t length, uint64_t answer)
{
    size_t used = stomp_length(answer);
    return used <= length && memcmp(buffer - FRONT, filled, FRONT) == 0 &&
           memcmp(buffer + used, filled + FRONT + used, length - used) == 0 &&
           memcmp(input_end - c->input_length, c->input, c->input_length) == 0 &&
           memcmp(body_end - c->body_length, c->body, c->body_length) == 0;
}

/* The answer of all, with a buffer of this length. */
static uint64_t agreed(const struct call *c, size_t length)
{
    uint64_t answer = 0;
    filled = fill + cases[c->encodes] % FILLS;
    for (size_t who = 0; who < COMPARED; who++) {
        uint8_t *buffer = fresh_buffer(length);
        uint64_t given = run(who, c, buffer, length);
        if (!is_kept(c, buffer, length, given))
            fail_call("something is written out of place", c);
        if (who > 0 && given != answer)
            fail_call("the answers differ", c);
        if (who > 0 && memcmp(written, buffer, stomp_length(given)) != 0)
            fail_call("what is written differs", c);
        memcpy(written, buffer, stomp_length(given));
        answer = given;
    }
    return answer;
}

static void try_shorter(const struct call *c, size_t length)
{
    unsigned code = c->encodes ? STOMP_ENCODE_SHORT_TARGET : STOMP_DECODE_SHORT_BLOCK;
    if (agreed(c, length) != (uint64_t)code << 16)
        fail_call("a short buffer has another answer", c);
    tally[c->encodes][code]++;
}

uint64_t try_call(const struct call *c)
{
    lay_out(c);
    uint64_t answer = run(BASELINE, c, buffer_end - STOMP_MAX_FRAME, STOMP_MAX_FRAME);
    size_t needed = stomp_length(answer);
    if (stomp_code(answer) >= NUMBERS || (stomp_index(answer) && stomp_code(answer) != STOMP_ENCODE_ENTRY))
        fail_call("no such answer", c);
    if (needed > 0) {
        try_shorter(c, needed - 1);
        try_shorter(c, random_between(&seed, 0, needed - 1));
    } else if (agreed(c, ROOMY) != answer) {
        fail_call("the buffer's length changes the answer", c);
    }
    if (agreed(c, needed + random_between(&seed, 1, 64)) != answer || agreed(c, needed) != answer)
        fail_call("the buffer's length changes the answer", c);
    tally[c->encodes][stomp_code(answer)]++;
    cases[c->encodes]++;
    return answer;
}

/* Encodes with one thing changed. */
static void try_damaged(const struct call *c)
{
    static struct row made;
    struct call changed = *c;
    changed.options = (uint32_t)random_between(&seed, 0, 1) | (uint32_t)random_between(&seed, 0, 1) << 2;
    switch (random_between(&seed, 0, 5)) {
    case 0:
        changed.command = (uint32_t)random_between(&seed, 0, 17);
        break;
    case 1:
        changed.body_length = random_between(&seed, 0, c->body_length);
        break;
    default:
        made.length = 0;
        put(&made, c->input, c->input_length);
        if (made.length > 0)
            damage(&made, &seed);
        changed.input = made.octets;
        changed.input_length = made.length;
    }
    try_call(&changed);
}

void try_buffers(const uint8_t *octets, size_t length)
{
    static uint8_t block[STOMP_MAX_BLOCK];
    struct call decode = {.input = octets, .input_length = length, .body = octets};
    uint64_t decoded = try_call(&decode);
    if (stomp_refused(decoded))
        return;
    uint64_t frame = parsers[BASELINE](octets, length);
    memcpy(block, written, stomp_length(decoded));
    struct call encode = {true,
                          0,
                          stomp_parse_command(frame),
                          block,
                          stomp_length(decoded),
                          octets + stomp_parse_body(frame),
                          stomp_parse_body_length(frame)};
    if (stomp_refused(try_call(&encode)))
        fail_call("a frame that was read is refused", &encode);
    encode.options = STOMP_COUNTED;
    uint64_t counted = try_call(&encode);
    if (stomp_refused(counted) && stomp_code(counted) != STOMP_ENCODE_LINE_COUNT)
        fail_call("a frame that was read is refused", &encode);
    try_damaged(&encode);
}

static void report(size_t call, const char *name, const unsigned *numbers, size_t count)
{
    printf("%lu cases of %s with the same answers and buffers: accepted %lu", cases[call], name,
           tally[call][0]);
    for (size_t i = 0; i < count; i++)
        printf(", %u %lu", numbers[i], tally[call][numbers[i]]);
    printf("\n");
    for (size_t i = 0; i < count; i++) {
        if (tally[call][numbers[i]] < LEAST_OF_EACH) {
            fprintf(stderr, "bench: too few cases have the answer %u\n", numbers[i]);
            exit(1);
        }
    }
}

void report_buffers(void)
{
    static const unsigned of_decode[] = {20, 21};
    static const unsigned of_encode[] = {50, 51, 52, 53, 54, 55, 56};
    report(0, "decode", of_decode, 2);
    report(1, "encode", of_encode, 7);
}
