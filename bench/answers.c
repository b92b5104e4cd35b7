/* Whether all parsers give the same answers: on written examples, on streams, on cases from a seed. */
#include "answers.h"

#include <stdbool.h>
#include <stdio.h>
#include <stdlib.h>
#include <string.h>

#include "../include/stomp.h"
#include "blocks.h"
#include "buffers.h"
#include "calls.h"
#include "examples.h"
#include "guard.h"
#include "row.h"

enum { TOKEN_CASES = 300000, EDGE_CASES = 100000, BODY_CASES = 1000, NAME_CASES = 100000 };
enum { OUTCOMES = 14, LEAST_OF_EACH = 200 };

/* Of a stream with more items, only every second, third and so on is tried with buffers and damaged. */
enum { MOST_TRIED = 200000 };

/* How often each answer was given: incomplete, heart-beat, frame, invalid 1 to 11. */
static unsigned long tally[OUTCOMES];
static unsigned long cases;

static struct row made;

/* The end of the room that the parsers read. */
static uint8_t *guard;

static void show_answer(const char *name, uint64_t a)
{
    fprintf(stderr, "  %-16s ", name);
    if (stomp_parse_kind(a) == STOMP_INCOMPLETE)
        fprintf(stderr, "incomplete");
    else if (stomp_parse_kind(a) == STOMP_INVALID)
        fprintf(stderr, "invalid %u at %zu", stomp_parse_code(a), stomp_parse_offset(a));
    else if (stomp_parse_kind(a) == STOMP_HEART_BEAT)
        fprintf(stderr, "heart-beat %zu", stomp_parse_used(a));
    else
        fprintf(stderr, "frame %zu, command %u, headers %zu, body at %zu, %zu", stomp_parse_used(a),
                (unsigned)stomp_parse_command(a), stomp_parse_headers(a), stomp_parse_body(a),
                stomp_parse_body_length(a));
    fprintf(stderr, " (%llu)\n", (unsigned long long)a);
}

static void fail(const char *what, const uint8_t *octets, size_t length)
{
    fflush(stdout);
    fprintf(stderr, "bench: %s\n", what);
    for (size_t p = 0; p < COMPARED; p++)
        show_answer(names[p], parsers[p](octets, length));
    show_octets("the input", octets, length);
    exit(1);
}

/* The answer of all parsers to these octets. */
static uint64_t agreed(const uint8_t *octets, size_t length)
{
    const uint8_t *copy = at_end(guard, octets, length);
    uint64_t answer = parsers[BASELINE](copy, length);
    for (size_t p = 0; p < COMPARED; p++)
        if (parsers[p](copy, length) != answer)
            fail("the answers differ", octets, length);
    return answer;
}

/* How many octets settle this answer; 0 where it is not settled. */
static size_t settled_by(uint64_t answer)
{
    return stomp_parse_kind(answer) == STOMP_INVALID ? stomp_parse_offset(answer) + 1
                                                     : stomp_parse_used(answer);
}

/* One case: the parsers agree; what settles the answer gives it, and one octet less does not. Then
 * decode and encode are tried with it. */
static void try(const uint8_t *octets, size_t length)
{
    uint64_t answer = agreed(octets, length);
    size_t settled = settled_by(answer);
    unsigned outcome = stomp_parse_kind(answer);
    if (outcome == STOMP_INVALID)
        outcome = 2 + stomp_parse_code(answer);
    if (settled > length || outcome >= OUTCOMES)
        fail("no such answer", octets, length);
    if (settled > 0 && agreed(octets, settled) != answer)
        fail("octets that come after change the answer", octets, length);
    if (settled > 0 && agreed(octets, settled - 1) != STOMP_INCOMPLETE)
        fail("the answer was settled before", octets, length);
    tally[outcome]++;
    cases++;
    try_buffers(octets, length);
}

/* Every beginning of these octets. */
static void try_prefixes(const uint8_t *octets, size_t length)
{
    for (size_t cut = 0; cut <= length; cut++)
        try(octets, cut);
}

static void check_examples(void)
{
    for (size_t i = 0; i < example_count; i++) {
        const struct example *e = &examples[i];
        made.length = 0;
        put_parts(&made, e->parts, PARTS);
        try(made.octets, made.length);
        if (agreed(made.octets, made.length) != e->answer) {
            fprintf(stderr, "bench: example: %s\n", e->what);
            show_answer("expected", e->answer);
            fail("wrong answer", made.octets, made.length);
        }
    }
    printf("%zu written examples have their answers\n", example_count);
}

/* Pieces that cases are put together from. Octet 0 is the first, which is empty here. */
static const char *const tokens[] = {
    "", "\n", "\n", "\n", "\r\n", "\r", ":", ":", "\\", "\\c", "\\n", "\\r", "\\\\", "\\t", "a", "x",
    "b:c\n", "b:\r\n", "\n\n", "content-length:", "content-length", "content-length:1\n",
    "content-length:3\r\n", "content-length:0\n\n", "0", "1", "2", "9", "32768", "32769", " ",
    "\xc3\xa9", "\xe2\x82\xac", "\xf0\x9f\x98\x80", "\xff", "\x80", "\xc3", "\xe2\x82", "\xed\xa0"
};

static const char *const commands[] = {
    "ABORT", "ACK", "BEGIN", "COMMIT", "CONNECT", "CONNECTED", "DISCONNECT", "ERROR", "MESSAGE",
    "NACK", "RECEIPT", "SEND", "STOMP", "SUBSCRIBE", "UNSUBSCRIBE"
};

static void put_token(struct row *r, uint64_t *seed)
{
    size_t t = random_between(seed, 0, sizeof tokens / sizeof tokens[0] - 1);
    put(r, tokens[t], t == 0 ? 1 : strlen(tokens[t]));
}

/* Any command; often CONNECT, CONNECTED or STOMP, whose rules for escapes and colons differ. */
static void put_command(struct row *r, uint64_t *seed)
{
    static const char *const opening[] = {"CONNECT", "CONNECTED", "STOMP"};
    const char *command = commands[random_between(seed, 0, 14)];
    if (random_between(seed, 0, 7) == 0)
        command = opening[random_between(seed, 0, 2)];
    size_t length = strlen(command);
    put(r, command, random_between(seed, 0, 15) ? length : random_between(seed, 0, length));
    put_times(r, random_between(seed, 0, 3) ? "\n" : "\r\n", 1);
}

/* Pieces in any order, most often after a command. */
static void check_tokens(uint64_t *seed)
{
    for (size_t i = 0; i < TOKEN_CASES; i++) {
        made.length = 0;
        if (random_between(seed, 0, 7))
            put_command(&made, seed);
        for (size_t left = random_between(seed, 0, 16); left > 0; left--)
            put_token(&made, seed);
        try(made.octets, made.length);
    }
}

/* A line that comes near its limit, and what happens there. */
static void put_edge_line(struct row *r, uint64_t *seed)
{
    static const char *const ends[] = {
        ":", "\\", "\\c", "a", "0", "\n", "\r\n", "\r", "32768", "::",
        "\xc3\xa9", "\xe2\x82\xac", "\xf0\x9f\x98\x80", "\xff", "\xe2"
    };
    switch (random_between(seed, 0, 5)) {
    case 0:
        put_times(r, "n", random_between(seed, 506, 513));
        break;
    case 1:
        put_times(r, "a:", 1);
        put_times(r, "v", random_between(seed, 505, 512));
        break;
    case 2:
        put_times(r, "content-length:", 1);
        put_times(r, "0", random_between(seed, 488, 499));
        break;
    case 3:
        put_times(r, "a:", 1);
        put_times(r, ":", random_between(seed, 505, 512));
        break;
    case 4:
        put_times(r, "a:", random_between(seed, 0, 1));
        put_times(r, "v", random_between(seed, 0, 2));
        put_times(r, "\xe2\x82\xac", random_between(seed, 167, 170));
        break;
    default:
        put_times(r, "a:", random_between(seed, 0, 1));
        put_times(r, "\\c", random_between(seed, 252, 257));
    }
    for (size_t left = random_between(seed, 1, 4); left > 0; left--)
        put_times(r, ends[random_between(seed, 0, sizeof ends / sizeof ends[0] - 1)], 1);
}

/* Counts of lines and lengths of lines near their limits. */
static void check_edges(uint64_t *seed)
{
    for (size_t i = 0; i < EDGE_CASES; i++) {
        made.length = 0;
        put_command(&made, seed);
        if (random_between(seed, 0, 3) == 0)
            put_times(&made, "a:b\n", random_between(seed, 28, 33));
        for (size_t lines = random_between(seed, 0, 2); lines > 0; lines--) {
            put_edge_line(&made, seed);
            put_times(&made, "\n", random_between(seed, 0, 1));
        }
        for (size_t left = random_between(seed, 0, 5); left > 0; left--)
            put_token(&made, seed);
        try(made.octets, made.length);
    }
}

/* Bodies near their limit, with and without content-length. */
static void check_bodies(uint64_t *seed)
{
    for (size_t i = 0; i < BODY_CASES; i++) {
        char line[40];
        size_t body = random_between(seed, 32764, 32770);
        snprintf(line, sizeof line, "content-length:%zu\n", random_between(seed, 32764, 32768));
        made.length = 0;
        put_command(&made, seed);
        put_times(&made, line, random_between(seed, 0, 1));
        put_times(&made, "\n", 1);
        put_times(&made, random_between(seed, 0, 1) ? "b" : "\r", body);
        if (random_between(seed, 0, 3) == 0)
            made.octets[made.length - random_between(seed, 1, body)] = 0;
        put(&made, "\0\0", random_between(seed, 0, 2));
        try(made.octets, made.length);
    }
}

/* An item with one to three damages, and perhaps cut. */
static void check_damaged(const uint8_t *item, size_t length, size_t times, uint64_t *seed)
{
    for (; times > 0; times--) {
        memcpy(made.octets, item, length);
        made.length = length;
        for (size_t left = random_between(seed, 1, 3); left > 0 && made.length > 0; left--)
            damage(&made, seed);
        if (random_between(seed, 0, 3) == 0)
            made.length = random_between(seed, 0, made.length);
        try(made.octets, made.length);
    }
}

/* All items of a stream; damage to all, or to some where there are very many; all beginnings of some. */
static void check_stream(const struct stream *st, uint64_t *seed)
{
    size_t items = 0;
    size_t at = 0;
    size_t damages = st->items < 10000 ? 4 : 1;
    size_t stride = 1 + st->items / MOST_TRIED;
    while (at < st->length) {
        const uint8_t *item = st->octets + at;
        uint64_t answer = parsers[BASELINE](item, st->length - at);
        size_t length = stomp_parse_used(answer);
        for (size_t p = 0; p < COMPARED; p++)
            if (parsers[p](item, st->length - at) != answer)
                fail("the answers differ in a stream", item, st->length - at);
        if (length == 0)
            fail("a stream has something that is no item", item, st->length - at);
        if (items % stride == 0) {
            try(item, length);
            check_damaged(item, length, damages, seed);
        }
        if (items % (st->items / 4) == 0)
            try_prefixes(item, length);
        at += length;
        items++;
    }
    if (items != st->items) {
        fprintf(stderr, "bench: stream %s has %zu items, not %zu\n", st->name, items, st->items);
        exit(1);
    }
}

/* A block of entries whose names are rows of a, b and c, so that many are there twice or more. */
static void put_short_entries(struct row *r, uint64_t *seed)
{
    for (size_t left = random_between(seed, 0, 9); left > 0; left--) {
        uint8_t head[] = {72, 68, 0, (uint8_t)random_between(seed, 0, 2), 0, (uint8_t)random_between(seed, 0, 3)};
        put(r, head, sizeof head);
        for (size_t n = head[3]; n > 0; n--)
            put_times(r, &"a\0b\0c"[2 * random_between(seed, 0, 2)], 1);
        put_times(r, "v", head[5]);
    }
}

/* What is found of a name in such a block, and how many entries follow, ours as by hand. */
static uint64_t agreed_later(const struct row *r, const char *text)
{
    const uint8_t *name = (const uint8_t *)text;
    const uint8_t *block = at_end(guard, r->octets, r->length);
    size_t length = strlen(text);
    uint64_t later = counters[OURS](block, r->length, name, length);
    if (later != counters[BASELINE](block, r->length, name, length) ||
        finders[OURS](block, r->length, name, length) != finders[BASELINE](block, r->length, name, length)) {
        fprintf(stderr, "bench: what is found of the name \"%s\" differs\n", text);
        show_octets("the block", block, r->length);
        exit(1);
    }
    return later;
}

/* Names looked up in such blocks, some of them damaged. */
static void check_names(void)
{
    static const char *const asked[] = {"", "a", "b", "ab", "abc"};
    static const char *const outcomes[] = {"none", "one", "more", "malformed"};
    unsigned long found[4] = {0};
    uint64_t seed = 19;
    for (size_t i = 0; i < NAME_CASES; i++) {
        made.length = 0;
        put_short_entries(&made, &seed);
        if (made.length > 0 && random_between(&seed, 0, 3) == 0)
            damage(&made, &seed);
        uint64_t later = agreed_later(&made, asked[random_between(&seed, 0, 4)]);
        found[stomp_later_code(later) ? 3 : later < 2 ? later : 2]++;
    }
    printf("%d names with the same later entries:", NAME_CASES);
    for (size_t o = 0; o < 4; o++) {
        printf("%s %s %lu", o ? "," : "", outcomes[o], found[o]);
        if (found[o] < LEAST_OF_EACH) {
            fprintf(stderr, "bench: too few names have the answer %s\n", outcomes[o]);
            exit(1);
        }
    }
    printf("\n");
}

/* Empty slices with the null pointer: ours answers as the rules say of nothing. */
static void check_null(void)
{
    uint8_t image[8], state[STOMP_FEED_STATE] = {0};
    static uint8_t buffer[STOMP_FEED_BUFFER];
    static const uint8_t ack[] = "ACK\n\n";
    bool right = stomp_parse(NULL, 0) == STOMP_INCOMPLETE;
    right = right && stomp_code(stomp_decode(NULL, 0, NULL, 0)) == STOMP_DECODE_NOT_A_FRAME;
    right = right && stomp_find(NULL, 0, NULL, 0) == 0 && stomp_later(NULL, 0, NULL, 0) == 0;
    right = right && stomp_feed_code(stomp_feed(NULL, 0, NULL, 0, NULL, 0)) == STOMP_FEED_SHORT_BUFFER;
    right = right && stomp_feed_code(stomp_feed(NULL, 0, buffer, sizeof buffer, NULL, 0)) == STOMP_FEED_INVALID_STATE;
    right = right && stomp_feed(state, sizeof state, buffer, sizeof buffer, NULL, 0) == STOMP_INCOMPLETE;
    right = right && stomp_code(stomp_encode(STOMP_COMMAND_ACK, NULL, 0, NULL, 0, NULL, 0)) ==
                         STOMP_ENCODE_SHORT_TARGET;
    right = right && stomp_code(stomp_encode_with(STOMP_COUNTED, STOMP_COMMAND_ACK, NULL, 0, NULL, 0, NULL, 0)) ==
                         STOMP_ENCODE_SHORT_TARGET;
    right = right && stomp_encode(STOMP_COMMAND_ACK, NULL, 0, NULL, 0, image, sizeof image) == sizeof ack;
    if (!right || memcmp(image, ack, sizeof ack) != 0) {
        fprintf(stderr, "bench: an empty slice with the null pointer has another answer\n");
        exit(1);
    }
}

void check_answers(const struct stream streams[STREAMS])
{
    static const char *const outcomes[OUTCOMES] = {
        "incomplete", "heart-beat", "frame", "1", "2", "3", "4", "5", "6", "7", "8", "9", "10", "11"
    };
    uint64_t seed = 12;
    guard = guarded_end();
    make_buffers();
    check_null();
    check_examples();
    check_blocks();
    check_names();
    check_tokens(&seed);
    check_edges(&seed);
    check_bodies(&seed);
    for (size_t s = 0; s < STREAMS; s++)
        check_stream(&streams[s], &seed);
    printf("%lu cases with the same answers:", cases);
    for (size_t o = 0; o < OUTCOMES; o++)
        printf("%s %s %lu", o ? "," : "", outcomes[o], tally[o]);
    printf("\n");
    for (size_t o = 0; o < OUTCOMES; o++) {
        if (tally[o] < LEAST_OF_EACH) {
            fprintf(stderr, "bench: too few cases have the answer %s\n", outcomes[o]);
            exit(1);
        }
    }
    report_buffers();
}
