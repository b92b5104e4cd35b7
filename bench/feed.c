/* The stream parser: streams in pieces, against one parse an item and a copy of its octets. */
#define _DEFAULT_SOURCE

#include "feed.h"

#include <stdio.h>
#include <stdlib.h>
#include <string.h>

#include "../include/stomp.h"
#include "seconds.h"

/* The ways of reading a stream: whole, and in pieces of so many octets. */
enum { WHOLE, ONES, HUNDREDS, PACKETS, LARGE, WAYS };
static const size_t pieces[WAYS] = {0, 1, 100, 1460, 65536};

/* The streams and that of the captured clients as they came. */
enum { CAPTURED = STREAMS, ALL_STREAMS };

/* Pieces of one octet take long, so they get fewer rounds. */
enum { ROUNDS = 20, ROUNDS_OF_ONES = 4 };
static const double least_time = 0.004;

/* What --check asks of the ratio from packets on, less where bodies are only copied; and of pieces of one
 * octet, in ns per octet. Nothing is asked yet of the streams that has_limits leaves out. */
static const double least_ratio = 0.8;
static const double least_counted_ratio = 0.6;
static const double most_of_ones = 40;

enum { CAPTURED_LENGTH = 8 << 20 };

static uint8_t buffer[STOMP_FEED_BUFFER];
static volatile uint64_t sink;

static void fail(const struct stream *st, const char *what, size_t way, size_t place)
{
    fflush(stdout);
    fprintf(stderr, "bench: feed, stream %s, pieces of %zu: %s at %zu\n", st->name, pieces[way], what, place);
    exit(1);
}

/* One parse an item, each call being given all that is left, and a copy of the item. */
static uint64_t read_whole(const struct stream *st)
{
    uint64_t sum = 0;
    for (size_t at = 0; at < st->length;) {
        uint64_t answer = stomp_parse(st->octets + at, st->length - at);
        size_t used = stomp_parse_used(answer);
        if (used == 0)
            fail(st, "no item", WHOLE, at);
        memcpy(buffer, st->octets + at, used);
        sum += answer + buffer[used - 1];
        at += used;
    }
    return sum;
}

/* In pieces; what is left of a piece after an item is handed in again. */
static uint64_t read_pieces(const struct stream *st, size_t way)
{
    uint8_t state[STOMP_FEED_STATE] = {0};
    size_t items = 0;
    for (size_t at = 0; at < st->length;) {
        size_t end = st->length - at < pieces[way] ? st->length : at + pieces[way];
        while (at < end) {
            uint64_t answer = stomp_feed(state, sizeof state, buffer, sizeof buffer, st->octets + at, end - at);
            items += stomp_feed_kind(answer) != STOMP_INCOMPLETE;
            at += stomp_feed_taken(answer);
        }
    }
    if (items != st->items)
        fail(st, "another number of items", way, items);
    return items;
}

static uint64_t read_stream(const struct stream *st, size_t way)
{
    return way == WHOLE ? read_whole(st) : read_pieces(st, way);
}

/* Each item in pieces is the one of the whole, with its octets at the buffer's front. */
static void check_pieces(const struct stream *st, size_t way)
{
    uint8_t state[STOMP_FEED_STATE] = {0};
    size_t start = 0;
    for (size_t at = 0; at < st->length;) {
        size_t end = st->length - at < pieces[way] ? st->length : at + pieces[way];
        while (at < end) {
            uint64_t answer = stomp_feed(state, sizeof state, buffer, sizeof buffer, st->octets + at, end - at);
            at += stomp_feed_taken(answer);
            if (stomp_feed_kind(answer) == STOMP_INCOMPLETE && at == end)
                break;
            uint64_t whole = stomp_parse(st->octets + start, st->length - start);
            size_t used = stomp_parse_used(whole);
            if (stomp_feed_kind(answer) != stomp_parse_kind(whole) || stomp_feed_used(answer) != used ||
                stomp_feed_command(answer) != stomp_parse_command(whole) ||
                stomp_feed_headers(answer) != stomp_parse_headers(whole) ||
                stomp_feed_body(answer) != stomp_parse_body(whole) ||
                stomp_feed_body_length(answer) != stomp_parse_body_length(whole))
                fail(st, "another item", way, start);
            if (at != start + used || memcmp(buffer, st->octets + start, used) != 0)
                fail(st, "other octets", way, start);
            start = at;
        }
    }
    for (size_t i = 0; i < sizeof state; i++)
        if (start != st->length || state[i] != 0)
            fail(st, "no end", way, start);
}

/* The captured items, laid end to end as often as fits. */
static void make_captured(struct stream *made, const struct captured *c)
{
    size_t times = CAPTURED_LENGTH / c->length;
    uint8_t *octets = malloc(CAPTURED_LENGTH);
    if (!octets) {
        fprintf(stderr, "bench: no memory for the captured streams\n");
        exit(2);
    }
    for (size_t i = 0; i < times; i++)
        memcpy(octets + i * c->length, c->octets, c->length);
    *made = (struct stream){"captured clients", octets, times * c->length, times * c->count};
}

/* The time of one reading, as the mean of some. */
static double time_of(const struct stream *st, size_t way, size_t passes)
{
    uint64_t sum = 0;
    double start = seconds();
    for (size_t done = 0; done < passes; done++)
        sum += read_stream(st, way);
    double time = seconds() - start;
    sink = sum;
    return time / (double)passes;
}

static void measure(const struct stream streams[ALL_STREAMS], double best[ALL_STREAMS][WAYS])
{
    size_t passes[ALL_STREAMS][WAYS];
    for (size_t s = 0; s < ALL_STREAMS; s++)
        for (size_t way = 0; way < WAYS; way++) {
            best[s][way] = time_of(&streams[s], way, 1);
            passes[s][way] = 1 + (size_t)(least_time / best[s][way]);
        }
    for (size_t round = 0; round < ROUNDS; round++)
        for (size_t s = 0; s < ALL_STREAMS; s++)
            for (size_t turn = 0; turn < WAYS; turn++) {
                size_t way = (round + turn) % WAYS;
                if (way == ONES && round >= ROUNDS_OF_ONES)
                    continue;
                double time = time_of(&streams[s], way, passes[s][way]);
                if (time < best[s][way])
                    best[s][way] = time;
            }
}

static void print(const struct stream *st, const double best[WAYS])
{
    double per_octet = 1e9 / (double)st->length;
    printf("%-21s %9zu %7zu %9.4f %9.2f", st->name, st->length, st->items, best[WHOLE] * per_octet,
           best[ONES] * per_octet);
    for (size_t way = HUNDREDS; way < WAYS; way++)
        printf(" %9.4f %6.2f", best[way] * per_octet, best[WHOLE] / best[way]);
    printf("\n");
}

static bool is_enough(const struct stream *st, const double best[WAYS], double least)
{
    bool good = true;
    double ones = best[ONES] * 1e9 / (double)st->length;
    if (ones >= most_of_ones) {
        fprintf(stderr, "bench: feed, stream %s: %.1f ns an octet in pieces of one, not under %.0f\n", st->name,
                ones, most_of_ones);
        good = false;
    }
    for (size_t way = PACKETS; way < WAYS; way++) {
        double ratio = best[WHOLE] / best[way];
        if (ratio >= least)
            continue;
        fprintf(stderr, "bench: feed, stream %s: the ratio in pieces of %zu is %.3f, under %.1f\n", st->name,
                pieces[way], ratio, least);
        good = false;
    }
    return good;
}

bool measure_feed(const struct stream streams[STREAMS], const struct captured *captured, bool check)
{
    struct stream all[ALL_STREAMS];
    double best[ALL_STREAMS][WAYS];
    bool good = true;
    memcpy(all, streams, STREAMS * sizeof *streams);
    make_captured(&all[CAPTURED], captured);
    for (size_t s = 0; s < ALL_STREAMS; s++)
        for (size_t way = ONES; way < WAYS; way++)
            check_pieces(&all[s], way);
    measure(all, best);
    printf("\nfeed, in pieces of so many octets; a ratio is the time of one parse an item and a copy of it divided by"
           " that of feed\n");
    printf("%-21s %9s %7s %9s %9s %9s %6s %9s %6s %9s %6s\n", "stream", "octets", "items", "whole", "1", "100",
           "ratio", "1,460", "ratio", "65,536", "ratio");
    for (size_t s = 0; s < ALL_STREAMS; s++) {
        print(&all[s], best[s]);
        fflush(stdout);
        if (check && has_limits(s))
            good &= is_enough(&all[s], best[s], s == COUNTED_BODIES ? least_counted_ratio : least_ratio);
    }
    free(all[CAPTURED].octets);
    return good;
}
