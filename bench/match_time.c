/* The time of matching: ours against the baseline, which fills the same row of answers, and against fnmatch
 * on patterns that both can say. First the answers are compared. */
#define _DEFAULT_SOURCE

#include <fnmatch.h>
#include <stdbool.h>
#include <stdio.h>
#include <stdlib.h>
#include <string.h>

#include "../include/stomp.h"
#include "baseline.h"
#include "seconds.h"

enum { OURS, BASELINE, FNMATCH, MATCHERS };
enum { ROUNDS = 20, TEXT = STOMP_MATCH_MAX_OCTETS + 64 };

/* The least time of one measurement, in seconds, and what --check asks of the ratio to the baseline. */
static const double least_time = 0.004;
static const double least_ratio = 0.8;

/* A name, a pattern, and what fnmatch is given for them: '/' for each point. With FNM_PATHNAME its `*` is
 * one word then; it cannot say `#`. */
struct pair {
    const char *what;
    char name[TEXT];
    char pattern[TEXT];
    bool said;
    char path[TEXT];
    char path_pattern[TEXT];
};

/* Keeps the compiler from leaving the calls out. */
static volatile uint64_t sink;

static const char *const small[][3] = {
    {"1 word", "ocean", "ocean"},
    {"4 words, itself", "port.ocean.sst.1", "port.ocean.sst.1"},
    {"4 words, *", "port.ocean.sst.1", "port.*.sst.*"},
    {"4 words, # last", "port.ocean.sst.1", "port.ocean.#"},
    {"4 words, other", "port.ocean.sst.1", "port.ice.#"},
    {"6 words, # twice", "port.ocean.grid.2.sst.1", "#.grid.#.1"},
};
enum { SMALL = sizeof small / sizeof *small, LARGE = 6, PAIRS = SMALL + LARGE };

/* As many words as may be, in turn the one and the other. */
static void join(char text[TEXT], const char *one, const char *other)
{
    text[0] = 0;
    for (int i = 0; i < STOMP_MATCH_MAX_WORDS; i++) {
        if (i > 0)
            strcat(text, ".");
        strcat(text, i % 2 ? other : one);
    }
}

static void put_path(char path[TEXT], const char *text)
{
    strcpy(path, text);
    for (char *at = path; *at; at++)
        if (*at == '.')
            *at = '/';
}

static void make_pairs(struct pair pairs[PAIRS])
{
    static const char *const large[LARGE][5] = {
        {"32 words, itself", "abcdefg", "abcdefg", "abcdefg", "abcdefg"},
        {"32 words, 32 *", "abcdefg", "abcdefg", "*", "*"},
        {"32 words, 32 #", "abcdefg", "abcdefg", "#", "#"},
        {"32 words, # and *", "abcdefg", "abcdefg", "#", "*"},
        {"32 words, # and itself", "abcdefg", "abcdefg", "#", "abcdefg"},
        {"32 words, # and other", "abcdefg", "abcdefg", "#", "abcdefh"},
    };
    for (size_t i = 0; i < PAIRS; i++) {
        struct pair *p = &pairs[i];
        if (i < SMALL) {
            p->what = small[i][0];
            strcpy(p->name, small[i][1]);
            strcpy(p->pattern, small[i][2]);
        } else {
            const char *const *made = large[i - SMALL];
            p->what = made[0];
            join(p->name, made[1], made[2]);
            join(p->pattern, made[3], made[4]);
        }
        p->said = strchr(p->pattern, '#') == NULL;
        put_path(p->path, p->name);
        put_path(p->path_pattern, p->pattern);
    }
}

static uint64_t ask(const struct pair *p, size_t who)
{
    const uint8_t *name = (const uint8_t *)p->name, *pattern = (const uint8_t *)p->pattern;
    if (who == OURS)
        return stomp_match(name, strlen(p->name), pattern, strlen(p->pattern));
    if (who == BASELINE)
        return baseline_match(name, strlen(p->name), pattern, strlen(p->pattern));
    return fnmatch(p->path_pattern, p->path, FNM_PATHNAME) == 0;
}

static void check_pair(const struct pair *p)
{
    for (size_t who = BASELINE; who < MATCHERS; who++) {
        if ((who != FNMATCH || p->said) && ask(p, who) != ask(p, OURS)) {
            fprintf(stderr, "bench: match: %s and %s have other answers\n", p->name, p->pattern);
            exit(1);
        }
    }
}

/* An empty slice may have any pointer. */
static void check_empty(void)
{
    const uint8_t *a = (const uint8_t *)"a";
    if (stomp_code(stomp_match(NULL, 0, NULL, 0)) != STOMP_MATCH_NAME ||
        stomp_code(stomp_match(NULL, 0, a, 1)) != STOMP_MATCH_NAME ||
        stomp_code(stomp_match(a, 1, NULL, 0)) != STOMP_MATCH_PATTERN) {
        fprintf(stderr, "bench: match: an empty slice has another answer\n");
        exit(1);
    }
}

/* Each pair; then rows of few octets, well-formed or not, against each other, and the limits. */
static void check_answers(const struct pair pairs[PAIRS])
{
    static const char octets[] = "a.*#";
    static struct pair p;
    for (size_t i = 0; i < PAIRS; i++)
        check_pair(&pairs[i]);
    for (size_t i = 0; i < 1 << 10; i++) {
        for (size_t j = 0; j < 1 << 10; j++) {
            for (size_t k = 0; k < 5; k++) {
                p.name[k] = octets[i >> 2 * k & 3];
                p.pattern[k] = octets[j >> 2 * k & 3];
            }
            check_pair(&p);
        }
    }
    for (size_t length = STOMP_MATCH_MAX_OCTETS - 1; length <= STOMP_MATCH_MAX_OCTETS + 1; length++) {
        memset(&p, 0, sizeof p);
        memset(p.name, 'a', length);
        strcpy(p.pattern, "*");
        check_pair(&p);
        strcpy(p.pattern, p.name);
        strcpy(p.name, "a");
        check_pair(&p);
    }
    join(p.name, "a", "b");
    strcpy(p.pattern, "#");
    check_pair(&p);
    strcat(p.name, ".a");
    check_pair(&p);
}

/* The ns of a call. */
static double time_of(const struct pair *p, size_t who, size_t calls)
{
    uint64_t sum = 0;
    double start = seconds();
    for (size_t i = 0; i < calls; i++)
        sum += ask(p, who);
    sink += sum;
    return 1e9 * (seconds() - start) / (double)calls;
}

/* The best of the rounds; who is measured takes turns. */
static void measure(const struct pair *p, double best[MATCHERS])
{
    size_t matchers = p->said ? MATCHERS : FNMATCH;
    size_t calls = 16;
    while (time_of(p, OURS, calls) * (double)calls < 1e9 * least_time)
        calls *= 2;
    for (size_t round = 0; round < ROUNDS; round++) {
        for (size_t turn = 0; turn < matchers; turn++) {
            size_t who = (round + turn) % matchers;
            double time = time_of(p, who, calls);
            if (round == 0 || time < best[who])
                best[who] = time;
        }
    }
}

int main(int argc, char **argv)
{
    static struct pair pairs[PAIRS];
    bool check = argc > 1 && strcmp(argv[1], "--check") == 0, good = true;
    make_pairs(pairs);
    check_empty();
    check_answers(pairs);
    printf("\nmatch, ns per call\n");
    printf("%-24s %9s %9s %9s %9s %9s\n", "pattern", "ours", "baseline", "ratio", "fnmatch", "ratio");
    for (size_t i = 0; i < PAIRS; i++) {
        double best[MATCHERS];
        measure(&pairs[i], best);
        double ratio = best[BASELINE] / best[OURS];
        printf("%-24s %9.1f %9.1f %9.2f", pairs[i].what, best[OURS], best[BASELINE], ratio);
        if (pairs[i].said)
            printf(" %9.1f %9.2f", best[FNMATCH], best[FNMATCH] / best[OURS]);
        printf("\n");
        if (check && ratio < least_ratio) {
            fprintf(stderr, "bench: match, %s: the ratio is %.3f, under %.1f\n", pairs[i].what, ratio,
                    least_ratio);
            good = false;
        }
    }
    return good ? 0 : 1;
}
