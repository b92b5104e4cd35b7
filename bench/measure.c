/* Compares answers and buffers, then measures: the program of bench/run for the calls for C. */
#define _DEFAULT_SOURCE

#include <stdbool.h>
#include <stdio.h>
#include <stdlib.h>
#include <string.h>

#include "../include/stomp.h"
#include "answers.h"
#include "baseline.h"
#include "calls.h"
#include "feed.h"
#include "seconds.h"
#include "streams.h"

/* Rounds of parse, and of decode and encode, which take longer. */
enum { PARSE_ROUNDS = 40, BUFFER_ROUNDS = 20 };

/* The least time of one measurement, in seconds. */
static const double least_time = 0.004;

/* What --check asks of the ratios; nothing yet of the streams that has_limits leaves out. */
static const double least_ratio = 0.9;
static const double least_memchr_ratio = 0.3;
static const double least_decode_ratio = 0.7;
static const double least_encode_ratio = 1.0;
static const double least_fast_decode = 0.9;
static const double least_fast_encode = 0.85;

/* Of each call against the baseline where values are characters of several octets. */
static const double least_wide_ratio = 0.8;

/* Of decode against the code before; 0 where nothing is asked. */
static const double least_before[STREAMS] = {
    [LONG_HEADERS] = 2.0, [ESCAPES] = 0.95, [SHORT_HEADERS] = 1.2};

#ifdef WITH_BEFORE
parser before_parse;
decoder before_decode;
encoder before_encode;
static const size_t measured = VARIANTS;
#else
#define before_parse NULL
#define before_decode NULL
#define before_encode NULL
static const size_t measured = COMPARED;
#endif

parser *const parsers[VARIANTS] = {stomp_parse, baseline_parse, baseline_parse_memchr, before_parse};
decoder *const decoders[VARIANTS] = {stomp_decode, baseline_decode, baseline_decode_memchr, before_decode};
encoder *const encoders[VARIANTS] = {stomp_encode_with, baseline_encode_with, baseline_encode_memcpy, before_encode};
finder *const finders[PAIR] = {stomp_find, baseline_find};
finder *const counters[PAIR] = {stomp_later, baseline_later};
const char *const names[VARIANTS] = {"ours", "baseline", "memchr", "before"};

/* The names that are looked up: some that frames have, and one that none has. */
static const char *const looked_up[] = {"destination", "message-id", "content-length", "receipt"};
enum { LOOKED_UP = sizeof looked_up / sizeof *looked_up };

/* A frame of a stream, and what it holds. */
struct frame {
    const uint8_t *octets;
    size_t length;
    uint32_t command;
    const uint8_t *block;
    size_t block_length;
    const uint8_t *body;
    size_t body_length;
};

/* A stream and its frames, which are fewer than its items where it has heart-beats. */
struct work {
    const struct stream *stream;
    struct frame *frames;
    size_t count;
};

/* Goes over the whole work once. */
typedef uint64_t pass(const struct work *w, size_t who);

/* Keeps the compiler from leaving the calls out. */
static volatile uint64_t sink;

static void *room_for(size_t octets)
{
    void *room = malloc(octets);
    if (!room && octets > 0) {
        fprintf(stderr, "bench: no memory for the frames\n");
        exit(2);
    }
    return room;
}

static size_t count_frames(const struct stream *st)
{
    size_t count = 0;
    for (size_t at = 0; at < st->length;) {
        uint64_t answer = baseline_parse(st->octets + at, st->length - at);
        count += stomp_parse_kind(answer) == STOMP_FRAME;
        at += stomp_parse_used(answer);
    }
    return count;
}

/* The frames of a stream, decoded. The answers have been checked before. */
static void make_work(struct work *w, const struct stream *st)
{
    size_t count = count_frames(st);
    /* A record is at most four octets longer than its line. */
    uint8_t *block = room_for(st->length + 4 * STOMP_MAX_LINES * count);
    *w = (struct work){st, room_for(count * sizeof *w->frames), 0};
    for (const uint8_t *at = st->octets; w->count < count;) {
        uint64_t answer = baseline_parse(at, st->length - (size_t)(at - st->octets));
        size_t length = stomp_parse_used(answer);
        if (stomp_parse_kind(answer) == STOMP_FRAME) {
            size_t used = stomp_length(baseline_decode(at, length, block, STOMP_MAX_BLOCK));
            w->frames[w->count++] = (struct frame){at,
                                                   length,
                                                   stomp_parse_command(answer),
                                                   block,
                                                   used,
                                                   at + stomp_parse_body(answer),
                                                   stomp_parse_body_length(answer)};
            block += used;
        }
        at += length;
    }
}

static void no_result(const struct work *w, const char *call, size_t place)
{
    fprintf(stderr, "bench: %s: nothing at %zu of stream %s\n", call, place, w->stream->name);
    exit(1);
}

/* Item by item, each call being given all that is left. */
static uint64_t parse_pass(const struct work *w, size_t who)
{
    parser *parse = parsers[who];
    const struct stream *st = w->stream;
    uint64_t sum = 0;
    for (size_t at = 0; at < st->length;) {
        uint64_t answer = parse(st->octets + at, st->length - at);
        size_t length = stomp_parse_used(answer);
        if (length == 0)
            no_result(w, "parse", at);
        sum += answer;
        at += length;
    }
    return sum;
}

/* Every frame into one block. */
static uint64_t decode_pass(const struct work *w, size_t who)
{
    static uint8_t block[STOMP_MAX_BLOCK];
    decoder *decode = decoders[who];
    uint64_t sum = 0;
    for (size_t i = 0; i < w->count; i++) {
        const struct frame *f = &w->frames[i];
        uint64_t answer = decode(f->octets, f->length, block, sizeof block);
        if (answer != f->block_length)
            no_result(w, "decode", (size_t)(f->octets - w->stream->octets));
        sum += answer + block[answer / 2];
    }
    return sum;
}

/* What every frame holds into one target. */
static uint64_t encode_pass(const struct work *w, size_t who)
{
    static uint8_t target[STOMP_MAX_FRAME];
    encoder *encode = encoders[who];
    uint64_t sum = 0;
    for (size_t i = 0; i < w->count; i++) {
        const struct frame *f = &w->frames[i];
        uint64_t answer = encode(0, f->command, f->block, f->block_length, f->body, f->body_length, target,
                                 sizeof target);
        if (stomp_refused(answer))
            no_result(w, "encode", (size_t)(f->octets - w->stream->octets));
        sum += answer + target[answer - 2];
    }
    return sum;
}

static uint64_t find_name(size_t who, const uint8_t *block, size_t length, size_t name)
{
    return finders[who](block, length, (const uint8_t *)looked_up[name], strlen(looked_up[name]));
}

/* Each of the names in the block of every frame. */
static uint64_t find_pass(const struct work *w, size_t who)
{
    uint64_t sum = 0;
    for (size_t i = 0; i < w->count; i++)
        for (size_t name = 0; name < LOOKED_UP; name++)
            sum += find_name(who, w->frames[i].block, w->frames[i].block_length, name);
    return sum;
}

/* Both find the same in every block, whole and with its last octets cut off. */
static void check_finds(const struct work *w)
{
    for (size_t i = 0; i < w->count; i++) {
        const struct frame *f = &w->frames[i];
        for (size_t name = 0; name < LOOKED_UP; name++)
            for (size_t cut = 0; cut < 8 && cut <= f->block_length; cut++)
                if (find_name(OURS, f->block, f->block_length - cut, name) !=
                    find_name(BASELINE, f->block, f->block_length - cut, name))
                    no_result(w, "find", (size_t)(f->octets - w->stream->octets));
    }
}

/* Whether a stream has what a call is measured with: parse takes any items, the others frames. */
static bool has_work(pass *run, const struct work *w)
{
    return run == parse_pass || w->count > 0;
}

/* The time of one pass, as the mean of some. */
static double time_of(pass *run, size_t who, const struct work *w, size_t passes)
{
    uint64_t sum = 0;
    double start = seconds();
    for (size_t done = 0; done < passes; done++)
        sum += run(w, who);
    double time = seconds() - start;
    sink = sum;
    return time / (double)passes;
}

/* The best time of each on each stream. They take turns, each round in another order, and the
 * rounds of one stream are spread over the whole run. */
static void measure(pass *run, size_t count, size_t rounds, const struct work works[STREAMS],
                    double best[STREAMS][VARIANTS])
{
    size_t passes[STREAMS][VARIANTS];
    for (size_t s = 0; s < STREAMS; s++) {
        for (size_t who = 0; who < count && has_work(run, &works[s]); who++) {
            best[s][who] = time_of(run, who, &works[s], 2);
            passes[s][who] = 1 + (size_t)(least_time / best[s][who]);
        }
    }
    for (size_t round = 0; round < rounds; round++) {
        for (size_t s = 0; s < STREAMS; s++) {
            for (size_t turn = 0; turn < count && has_work(run, &works[s]); turn++) {
                size_t who = (round + turn) % count;
                double time = time_of(run, who, &works[s], passes[s][who]);
                if (time < best[s][who])
                    best[s][who] = time;
            }
        }
    }
}

/* Prints one row of a table: ours and the baseline, then so many others. */
static void print_row(const struct stream *st, const double best[VARIANTS], size_t count)
{
    double per_octet = 1e9 / (double)st->length;
    printf("%-21s %9zu %7zu %9.4f", st->name, st->length, st->items, best[OURS] * per_octet);
    for (size_t who = BASELINE; who < count; who++)
        printf(" %9.4f %9.2f", best[who] * per_octet, best[who] / best[OURS]);
    printf("\n");
}

static void print_head(size_t count)
{
    printf("%-21s %9s %7s %9s", "stream", "octets", "items", names[OURS]);
    for (size_t who = BASELINE; who < count; who++)
        printf(" %9s %9s", names[who], "ratio");
    printf("\n");
}

/* Whether a ratio is as large as asked; says so where it is not. */
static bool is_enough(const char *call, const struct stream *st, size_t against, const double best[VARIANTS],
                      double least)
{
    double ratio = best[against] / best[OURS];
    if (ratio < least)
        fprintf(stderr, "bench: %s, stream %s: the ratio to %s is %.3f, under %.2f\n", call, st->name,
                names[against], ratio, least);
    return ratio >= least;
}

/* The same of all streams that have limits; where values are characters of several octets, what is asked of these. */
static bool are_enough(const char *call, const struct work works[STREAMS], double best[STREAMS][VARIANTS],
                       double least)
{
    bool good = true;
    for (size_t s = 0; s < STREAMS; s++)
        if (has_limits(s))
            good &= is_enough(call, works[s].stream, BASELINE, best[s], s == CHARACTERS ? least_wide_ratio : least);
    return good;
}

static bool is_plain(size_t s)
{
    return s == SHORT_FRAMES || s == LONG_HEADERS || s == SHORT_HEADERS;
}

/* What is asked of decode and encode beside that. */
static bool are_quick(const struct work works[STREAMS], double decode[STREAMS][VARIANTS],
                      double encode[STREAMS][VARIANTS])
{
    bool good = true;
    for (size_t s = 0; s < STREAMS; s++) {
        const struct stream *st = works[s].stream;
        if (!has_limits(s))
            continue;
        if (is_plain(s))
            good &= is_enough("decode", st, FAST, decode[s], least_fast_decode);
        if (s != CHARACTERS)
            good &= is_enough("encode", st, FAST, encode[s], least_fast_encode);
        if (measured > BEFORE)
            good &= is_enough("decode", st, BEFORE, decode[s], least_before[s]);
    }
    return good;
}

/* Measures a call and prints its table. */
static void measure_call(const char *call, pass *run, size_t count, size_t rounds, const struct work works[STREAMS],
                         double best[STREAMS][VARIANTS])
{
    measure(run, count, rounds, works, best);
    printf("\n%s\n", call);
    print_head(count);
    for (size_t s = 0; s < STREAMS; s++)
        if (has_work(run, &works[s]))
            print_row(works[s].stream, best[s], count);
    fflush(stdout);
}

int main(int argc, char **argv)
{
    static struct captured captured;
    struct stream streams[STREAMS];
    struct work works[STREAMS];
    double parse[STREAMS][VARIANTS], decode[STREAMS][VARIANTS], encode[STREAMS][VARIANTS];
    double find[STREAMS][VARIANTS];
    bool good = true;
    bool check = argc > 1 && strcmp(argv[1], "--check") == 0;
    int first = check ? 2 : 1;
    if (argc <= first) {
        fprintf(stderr, "usage: measure [--check] STREAM..\n");
        return 2;
    }
    read_captured(&captured, argv + first, argc - first);
    make_streams(streams, &captured);
    check_answers(streams);
    for (size_t s = 0; s < STREAMS; s++) {
        make_work(&works[s], &streams[s]);
        check_finds(&works[s]);
    }
    printf("ns per octet; a ratio is the time of C, or of the code before, divided by that of ours\n");
    measure_call("parse", parse_pass, measured, PARSE_ROUNDS, works, parse);
    measure_call("decode", decode_pass, measured, BUFFER_ROUNDS, works, decode);
    measure_call("encode", encode_pass, measured, BUFFER_ROUNDS, works, encode);
    measure_call("find", find_pass, PAIR, BUFFER_ROUNDS, works, find);
    good &= measure_feed(streams, &captured, check);
    if (check) {
        good &= are_enough("parse", works, parse, least_ratio);
        good &= is_enough("parse", &streams[TEXT_BODIES], FAST, parse[TEXT_BODIES],
                          least_memchr_ratio);
        good &= are_enough("decode", works, decode, least_decode_ratio);
        good &= are_enough("encode", works, encode, least_encode_ratio);
        good &= are_quick(works, decode, encode);
    }
    return good ? 0 : 1;
}
