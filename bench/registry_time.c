/* The time of the registry's calls where it is full: ours against registry.c. First the answers and the records
 * are compared, on calls from a seed, some on damaged records: registry_time [--check]. */
#define _POSIX_C_SOURCE 199309L

#include <stdbool.h>
#include <stdio.h>
#include <stdlib.h>
#include <string.h>

#include "../include/stomp.h"
#include "baseline.h"
#include "seconds.h"

enum { OURS, BASELINE, BOTH };
enum { RECORDS = 64, ROUNDS = 2000, COMPARED = 200000, TEXT = STOMP_REGISTRY_MAX_TEXT };

/* What --check asks: the most ns of a call, and the least ratio to the baseline. */
static const double most_time = 2000;
static const double least_ratio = 0.7;

/* The calls, as both have them. */
static const struct calls {
    uint64_t (*open)(uint8_t *, size_t, const uint8_t *, size_t);
    uint64_t (*close)(uint8_t *, size_t, const uint8_t *, size_t);
    uint64_t (*publish)(uint8_t *, size_t, const uint8_t *, size_t, const uint8_t *, size_t, const uint8_t *,
                        size_t, uint64_t);
    uint64_t (*end)(uint8_t *, size_t, uint64_t);
    uint64_t (*ask)(const uint8_t *, size_t, const uint8_t *, size_t, const uint8_t *, size_t);
} calls[BOTH] = {
    {stomp_registry_open, stomp_registry_close, stomp_registry_publish, stomp_registry_end, stomp_registry_ask},
    {baseline_registry_open, baseline_registry_close, baseline_registry_publish, baseline_registry_end,
     baseline_registry_ask},
};

enum kind { ASK, AGAIN, NEW, END, OPEN, CLOSE, KINDS };
static const char *const kinds[KINDS] = {"ask", "publish again", "publish, new", "end", "open", "close"};

/* A call: what it does, and its arguments. */
struct call {
    enum kind kind;
    const uint8_t *run, *destination, *text;
    size_t run_length, destination_length, text_length;
    uint64_t session;
};

static void fail(const char *what)
{
    fprintf(stderr, "bench: registry: %s\n", what);
    exit(1);
}

static uint64_t make(size_t who, uint8_t *registry, size_t length, const struct call *c)
{
    const struct calls *of = &calls[who];
    switch (c->kind) {
    case ASK:
        return of->ask(registry, length, c->run, c->run_length, c->destination, c->destination_length);
    case AGAIN:
    case NEW:
        return of->publish(registry, length, c->run, c->run_length, c->destination, c->destination_length,
                           c->text, c->text_length, c->session);
    case END:
        return of->end(registry, length, c->session);
    case OPEN:
        return of->open(registry, length, c->run, c->run_length);
    default:
        return of->close(registry, length, c->run, c->run_length);
    }
}

static uint32_t random_below(uint32_t bound)
{
    static uint64_t state = 21;
    state = state * 6364136223846793005u + 1442695040888963407u;
    return (uint32_t)(state >> 33) % bound;
}

/* One of few texts: they meet, one is the beginning of another, and some are too long or empty. */
static size_t some_text(uint8_t text[2 * TEXT], size_t most)
{
    static const size_t shorter[] = {1, 1, 1, 2, 6};
    size_t length = random_below(12) ? shorter[random_below(5)] : random_below(3) * most / 2 + random_below(2);
    memset(text, 'a', length);
    if (length > 0)
        text[length - 1] = (uint8_t)('a' + random_below(9));
    return length;
}

/* Calls from a seed on two records; now and then an octet of both is changed, or they are cleared. */
static void check_answers(void)
{
    static uint8_t records[BOTH][STOMP_REGISTRY], run[2 * TEXT], destination[2 * TEXT], text[2 * TEXT];
    unsigned seen[128] = {0};
    for (size_t i = 0; i < COMPARED; i++) {
        struct call c = {(enum kind)random_below(KINDS + 2), run, destination, text, 0, 0, 0, random_below(3)};
        if (c.kind >= KINDS || (c.kind == CLOSE && random_below(4)))
            c.kind = NEW;
        c.run_length = some_text(run, STOMP_REGISTRY_MAX_RUN);
        if (random_below(2))
            run[0] = 'a', c.run_length = 1;
        c.destination_length = some_text(destination, STOMP_REGISTRY_MAX_DESTINATION);
        c.text_length = some_text(text, STOMP_REGISTRY_MAX_TEXT);
        if (random_below(30) == 0) {
            size_t at = random_below(STOMP_REGISTRY);
            records[OURS][at] = records[BASELINE][at] = (uint8_t)random_below(70);
        } else if (random_below(60) == 0) {
            memset(records, 0, sizeof records);
        }
        uint64_t ours = make(OURS, records[OURS], STOMP_REGISTRY, &c);
        if (ours != make(BASELINE, records[BASELINE], STOMP_REGISTRY, &c))
            fail("the answers differ");
        if (memcmp(records[OURS], records[BASELINE], STOMP_REGISTRY) != 0)
            fail("the records differ");
        seen[stomp_registry_code(ours)]++;
    }
    for (unsigned code = STOMP_REGISTRY_INVALID; code <= STOMP_REGISTRY_RUNS_TAKEN; code++)
        if (seen[code] == 0)
            fail("a number did not come up");
}

/* An empty slice may have any pointer, and a record of another length is refused. */
static void check_empty(void)
{
    static uint8_t registry[STOMP_REGISTRY + 1];
    for (size_t kind = 0; kind < KINDS; kind++) {
        struct call c = {(enum kind)kind, NULL, NULL, NULL, 0, 0, 0, 0};
        uint64_t due = kind == END ? 0 : STOMP_REGISTRY_SIZE;
        if (make(OURS, registry, STOMP_REGISTRY, &c) != due || make(OURS, NULL, 0, &c) != STOMP_REGISTRY_INVALID ||
            make(OURS, registry, sizeof registry, &c) != STOMP_REGISTRY_INVALID)
            fail("an empty slice or another length has another answer");
    }
}

/* Texts of a size that differ in their last two octets only. */
struct names {
    uint8_t runs[STOMP_REGISTRY_RUNS][TEXT];
    uint8_t destinations[STOMP_REGISTRY_PLACES][TEXT];
    uint8_t text[TEXT];
    size_t name_length, text_length;
};

static void name(uint8_t text[TEXT], size_t length, size_t number)
{
    memset(text, 'p', TEXT);
    text[length - 2] = (uint8_t)('0' + number / 10);
    text[length - 1] = (uint8_t)('0' + number % 10);
}

static struct call call_of(const struct names *n, enum kind kind, size_t run, size_t port)
{
    struct call c = {kind, n->runs[run], n->destinations[port], n->text, n->name_length, n->name_length,
                     n->text_length, port};
    return c;
}

/* The record before a call: all places are taken, but for the one that the call takes. Session 7 has the last
 * port of each run. */
static void fill(uint8_t registry[STOMP_REGISTRY], const struct names *n, enum kind kind)
{
    memset(registry, 0, STOMP_REGISTRY);
    for (size_t run = 0; run < STOMP_REGISTRY_RUNS; run++) {
        bool last = run == STOMP_REGISTRY_RUNS - 1;
        if (kind == OPEN && last)
            return;
        struct call open = call_of(n, OPEN, run, 0);
        if (make(BASELINE, registry, STOMP_REGISTRY, &open) != 0)
            fail("a run is not opened");
        for (size_t port = 0; port < STOMP_REGISTRY_PLACES; port++) {
            struct call publish = call_of(n, NEW, run, port);
            if (kind == NEW && last && port == STOMP_REGISTRY_PLACES - 1)
                return;
            if (make(BASELINE, registry, STOMP_REGISTRY, &publish) != 0)
                fail("a port is not published");
        }
    }
}

/* The ns of a call: each of some records gets one, and all are as before in the next round. */
static double time_of(size_t who, const uint8_t registry[STOMP_REGISTRY], const struct call *c)
{
    static uint8_t records[RECORDS][STOMP_REGISTRY];
    uint64_t sum = 0;
    for (size_t i = 0; i < RECORDS; i++)
        memcpy(records[i], registry, STOMP_REGISTRY);
    double start = seconds();
    for (size_t i = 0; i < RECORDS; i++)
        sum += stomp_registry_code(make(who, records[i], STOMP_REGISTRY, c));
    double time = seconds() - start;
    if (sum != 0)
        fail("a call is refused");
    return 1e9 * time / RECORDS;
}

static int compare(const void *a, const void *b)
{
    double x = *(const double *)a, y = *(const double *)b;
    return (x > y) - (x < y);
}

static double median(double of_rounds[ROUNDS])
{
    qsort(of_rounds, ROUNDS, sizeof *of_rounds, compare);
    return of_rounds[ROUNDS / 2];
}

/* The median times of the rounds, in which both take turns, and the median of the ratios: the machine may be
 * quicker in one round than in another. */
static double measure(const struct names *n, enum kind kind, double medians[BOTH])
{
    static double times[BOTH][ROUNDS], ratios[ROUNDS];
    uint8_t registry[STOMP_REGISTRY];
    struct call c = call_of(n, kind, STOMP_REGISTRY_RUNS - 1, STOMP_REGISTRY_PLACES - 1);
    fill(registry, n, kind);
    for (size_t round = 0; round < ROUNDS; round++) {
        for (size_t turn = 0; turn < BOTH; turn++) {
            size_t who = (round + turn) % BOTH;
            times[who][round] = time_of(who, registry, &c);
        }
        ratios[round] = times[BASELINE][round] / times[OURS][round];
    }
    for (size_t who = 0; who < BOTH; who++)
        medians[who] = median(times[who]);
    return median(ratios);
}

/* Prints a case: whether it is as --check asks, if that is given; says so where not. */
static bool show(const struct names *n, enum kind kind, bool check)
{
    double time[BOTH];
    double ratio = measure(n, kind, time);
    printf("%-14s %7zu %5zu %9.0f %9.0f %9.2f\n", kinds[kind], n->name_length, n->text_length, time[OURS],
           time[BASELINE], ratio);
    if (!check || (time[OURS] < most_time && ratio >= least_ratio))
        return true;
    fprintf(stderr, "bench: registry, %s: %.0f ns, ratio %.2f; asked are under %.0f and %.1f\n", kinds[kind],
            time[OURS], ratio, most_time, least_ratio);
    return false;
}

int main(int argc, char **argv)
{
    static const size_t lengths[][2] = {{6, 16}, {STOMP_REGISTRY_MAX_RUN, STOMP_REGISTRY_MAX_TEXT}};
    static struct names n;
    bool check = argc > 1 && strcmp(argv[1], "--check") == 0, good = true;
    check_empty();
    check_answers();
    printf("\ncalls of a registry with 4 runs of 8 ports, ns per call\n");
    printf("%-14s %7s %5s %9s %9s %9s\n", "call", "names", "text", "ours", "baseline", "ratio");
    for (size_t i = 0; i < sizeof lengths / sizeof *lengths; i++) {
        n.name_length = lengths[i][0];
        n.text_length = lengths[i][1];
        for (size_t run = 0; run < STOMP_REGISTRY_RUNS; run++)
            name(n.runs[run], n.name_length, run);
        for (size_t port = 0; port < STOMP_REGISTRY_PLACES; port++)
            name(n.destinations[port], n.name_length, port);
        name(n.text, n.text_length, 0);
        for (size_t kind = 0; kind < KINDS; kind++)
            good = show(&n, (enum kind)kind, check) && good;
    }
    return good ? 0 : 1;
}
