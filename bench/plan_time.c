/* How long stomp_check_plan takes with lists of many messages, in some orders, and with full plans: plan_time
 * [--check]. With --check it fails where 10,000 messages take 50 ms or more in any of the orders. */
#define _POSIX_C_SOURCE 199309L

#include <stdio.h>
#include <stdlib.h>
#include <string.h>

#include "../include/stomp.h"
#include "seconds.h"

enum { FRONT = 6, ASKED = 10000, ROUNDS = 5 };
static const double most_ms = 50;
static const char destination[] = "port.ocean.sst", pattern[] = "port.#";

enum order { ASCENDING, DESCENDING, SHUFFLED, BUT_LAST, ORDERS };
static const char *const orders[] = {"ascending", "descending", "shuffled", "ascending but the last"};

static uint8_t *put_four(uint8_t *to, uint32_t n)
{
    for (int i = 0; i < 4; i++)
        to[i] = (uint8_t)(n >> (24 - 8 * i));
    return to + 4;
}

static uint8_t *put_text(uint8_t *to, const char *text)
{
    size_t length = strlen(text);
    to[0] = (uint8_t)(length >> 8);
    to[1] = (uint8_t)length;
    memcpy(to + 2, text, length);
    return to + 2 + length;
}

/* Numbers, no two alike, in that order. */
static void fill(uint32_t *numbers, size_t count, enum order order)
{
    uint64_t random = 1;
    for (size_t i = 0; i < count; i++)
        numbers[i] = (uint32_t)(order == DESCENDING ? count - i : i + 1) * 4000u;
    for (size_t i = count - 1; order == SHUFFLED && i > 0; i--) {
        random = random * 6364136223846793005u + 1442695040888963407u;
        size_t j = (size_t)(random >> 33) % (i + 1);
        uint32_t other = numbers[i];
        numbers[i] = numbers[j];
        numbers[j] = other;
    }
    if (order == BUT_LAST)
        numbers[count - 1] = 1;
}

/* The best time of a call, in ms: one with that many messages and a plan of 64 pairs, which hands out the
 * last messages of the list. What is left out, or that it is accepted, is checked. */
static double time_of(size_t count, enum order order)
{
    uint32_t *numbers = malloc(count * sizeof *numbers);
    uint8_t *messages = malloc(count * (FRONT + sizeof destination));
    uint8_t live[64], plan[STOMP_PLAN_MAX_PAIRS * STOMP_PLAN_PAIR];
    uint8_t *end = messages, *pair = plan;
    if (!numbers || !messages)
        exit(2);
    fill(numbers, count, order);
    for (size_t i = 0; i < count; i++)
        end = put_text(put_four(end, numbers[i]), destination);
    uint8_t *live_end = put_four(put_text(put_four(live, 1), pattern), STOMP_PLAN_MAX_PAIRS);
    for (size_t i = 0; i < STOMP_PLAN_MAX_PAIRS; i++)
        pair = put_four(put_four(pair, numbers[count - 1 - i]), 1);
    double best = 1e9;
    for (int round = 0; round < (count > ASKED ? 2 : ROUNDS); round++) {
        double start = seconds();
        uint64_t answer = stomp_check_plan(messages, (size_t)(end - messages), live, (size_t)(live_end - live),
                                           plan, sizeof plan);
        double time = (seconds() - start) * 1e3;
        uint64_t due = count > STOMP_PLAN_MAX_PAIRS ? (uint64_t)STOMP_PLAN_LEFT_OUT << 32 | numbers[0] : 0;
        if (answer != due) {
            fprintf(stderr, "plan_time: %zu messages, %s: another answer\n", count, orders[order]);
            exit(1);
        }
        best = time < best ? time : best;
    }
    free(numbers);
    free(messages);
    return best;
}

int main(int argc, char **argv)
{
    static const size_t counts[] = {STOMP_PLAN_MAX_PAIRS, 1000, ASKED, 20000, 100000};
    int check = argc > 1 && strcmp(argv[1], "--check") == 0;
    int status = 0;
    if (stomp_check_plan(NULL, 0, NULL, 0, NULL, 0) != 0) {
        fprintf(stderr, "plan_time: nothing to hand out is not accepted\n");
        return 1;
    }
    printf("check_plan, ms for a call with a plan of %d pairs\n", STOMP_PLAN_MAX_PAIRS);
    printf("%8s", "messages");
    for (int order = 0; order < ORDERS; order++)
        printf("  %s", orders[order]);
    printf("\n");
    for (size_t i = 0; i < sizeof counts / sizeof *counts; i++) {
        printf("%8zu", counts[i]);
        for (int order = 0; order < ORDERS; order++) {
            double ms = time_of(counts[i], (enum order)order);
            printf("  %*.3f", (int)strlen(orders[order]), ms);
            if (check && counts[i] == ASKED && ms >= most_ms)
                status = 1;
        }
        printf("\n");
    }
    if (status)
        printf("%d messages take %.0f ms or more\n", ASKED, most_ms);
    return status;
}
