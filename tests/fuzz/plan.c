/* stomp_check_plan against a plain one, which walks the lists for each question. An input is the length of
 * the messages in two octets, high first, the messages, the same of the subscriptions, and the plan. They
 * are there as they are, or as texts of which whole records are made: octet 255 ends an entry, whose first
 * octet is the number, and of a subscription the second the room; a pair has two octets. Octets over 127
 * are numbers just below 2^32. */
#include <stdio.h>
#include <stdlib.h>
#include <string.h>

#include "../../bench/baseline.h"
#include "../../include/stomp.h"
#include "fuzz.h"

enum { FRONT = 6, FOUR = 4 };

/* A message or a subscription; a message has no room. */
struct record {
    uint32_t number;
    const uint8_t *text;
    size_t length;
    uint32_t room;
};

static uint32_t four(const uint8_t *octets)
{
    return (uint32_t)octets[0] << 24 | (uint32_t)octets[1] << 16 | (uint32_t)octets[2] << 8 | octets[3];
}

/* How long the record at a place is; 0 where there is no whole one. */
static size_t record_at(const uint8_t *list, size_t length, size_t at, size_t of_room, struct record *r)
{
    if (length - at < FRONT)
        return 0;
    r->number = four(list + at);
    r->length = (size_t)list[at + FOUR] << 8 | list[at + FOUR + 1];
    r->text = list + at + FRONT;
    if (length - at - FRONT < r->length + of_room)
        return 0;
    r->room = of_room ? four(r->text + r->length) : 0;
    return FRONT + r->length + of_room;
}

/* The first record of a number before a place. */
static bool find(const uint8_t *list, size_t end, size_t of_room, uint32_t number, struct record *r)
{
    for (size_t at = 0; at < end; at += FRONT + r->length + of_room) {
        record_at(list, end, at, of_room, r);
        if (r->number == number)
            return true;
    }
    return false;
}

/* Whole records, no number twice, every text well formed. */
static bool sound(const uint8_t *list, size_t length, size_t of_room)
{
    struct record r, other;
    for (size_t at = 0, size; at < length; at += size) {
        size = record_at(list, length, at, of_room, &r);
        if (size == 0 || baseline_match(r.text, r.length, (const uint8_t *)"#", 1) != STOMP_MATCH)
            return false;
        if (find(list, at, of_room, r.number, &other))
            return false;
    }
    return true;
}

/* How many of the first pairs have a number in the column at 0 or 4. */
static size_t count(const uint8_t *plan, size_t pairs, size_t column, uint32_t number)
{
    size_t n = 0;
    for (size_t i = 0; i < pairs; i++)
        n += four(plan + i * STOMP_PLAN_PAIR + column) == number;
    return n;
}

static uint64_t refused(unsigned code, uint32_t named)
{
    return (uint64_t)code << 32 | named;
}

static uint64_t plain_check_plan(const uint8_t *messages, size_t messages_length, const uint8_t *subscriptions,
                          size_t subscriptions_length, const uint8_t *plan, size_t plan_length)
{
    size_t pairs = plan_length / STOMP_PLAN_PAIR;
    struct record m, s;
    if (pairs > STOMP_PLAN_MAX_PAIRS)
        return refused(STOMP_PLAN_TOO_MANY_PAIRS, 0);
    if (plan_length % STOMP_PLAN_PAIR != 0 || !sound(messages, messages_length, 0) ||
        !sound(subscriptions, subscriptions_length, FOUR))
        return refused(STOMP_PLAN_MALFORMED, 0);
    for (size_t i = 0; i < pairs; i++) {
        uint32_t message = four(plan + i * STOMP_PLAN_PAIR);
        uint32_t subscription = four(plan + i * STOMP_PLAN_PAIR + FOUR);
        if (!find(messages, messages_length, 0, message, &m))
            return refused(STOMP_PLAN_UNKNOWN_MESSAGE, (uint32_t)i);
        if (count(plan, i, 0, message) > 0)
            return refused(STOMP_PLAN_MESSAGE_AGAIN, (uint32_t)i);
        if (!find(subscriptions, subscriptions_length, FOUR, subscription, &s) ||
            baseline_match(m.text, m.length, s.text, s.length) != STOMP_MATCH)
            return refused(STOMP_PLAN_NOT_MATCHING, (uint32_t)i);
        if (count(plan, i, FOUR, subscription) >= s.room)
            return refused(STOMP_PLAN_OVER_ROOM, (uint32_t)i);
    }
    for (size_t at = 0; at < messages_length; at += FRONT + m.length) {
        record_at(messages, messages_length, at, 0, &m);
        if (count(plan, pairs, 0, m.number) == 0)
            return refused(STOMP_PLAN_LEFT_OUT, m.number);
    }
    return 0;
}

/* The three lists of a call. */
struct lists {
    const uint8_t *list[SLICES];
    size_t length[SLICES];
};

enum { ENTRY_END = 255, LIST = ROOM - GUARD };

static void put_four(uint8_t *to, uint8_t number)
{
    memset(to, number > 127 ? 255 : 0, FOUR - 1);
    to[FOUR - 1] = number;
}

/* Makes records of a text, as many as there is room for. */
static void make_records(struct lists *l, size_t i, size_t of_room)
{
    static uint8_t made[SLICES][LIST];
    const uint8_t *at = l->list[i];
    size_t left = l->length[i];
    size_t used = 0;
    while (left > of_room / FOUR) {
        const uint8_t *end = memchr(at, ENTRY_END, left);
        size_t entry = end ? (size_t)(end - at) : left;
        size_t numbers = 1 + of_room / FOUR;
        if (entry < numbers)
            break;
        size_t text = entry - numbers;
        if (text > 0xffff || FRONT + text + of_room > LIST - used)
            break;
        put_four(made[i] + used, at[0]);
        made[i][used + FOUR] = (uint8_t)(text >> 8);
        made[i][used + FOUR + 1] = (uint8_t)text;
        memcpy(made[i] + used + FRONT, at + numbers, text);
        if (of_room)
            put_four(made[i] + used + FRONT + text, at[1]);
        used += FRONT + text + of_room;
        at += end ? entry + 1 : entry;
        left -= end ? entry + 1 : entry;
    }
    l->list[i] = made[i];
    l->length[i] = used;
}

static void make_pairs(struct lists *l)
{
    static uint8_t made[LIST];
    size_t pairs = l->length[BUFFER] / 2;
    if (pairs > LIST / STOMP_PLAN_PAIR)
        pairs = LIST / STOMP_PLAN_PAIR;
    for (size_t i = 0; i < pairs; i++) {
        put_four(made + i * STOMP_PLAN_PAIR, l->list[BUFFER][2 * i]);
        put_four(made + i * STOMP_PLAN_PAIR + FOUR, l->list[BUFFER][2 * i + 1]);
    }
    l->list[BUFFER] = made;
    l->length[BUFFER] = pairs * STOMP_PLAN_PAIR;
}

static void fail(const char *what, uint64_t ours, uint64_t other)
{
    fprintf(stderr, "fuzz: plan: %s: ours %#llx, the other %#llx\n", what, (unsigned long long)ours,
            (unsigned long long)other);
    abort();
}

/* Takes a list from the front of what is left. */
static void take(struct lists *l, size_t i, size_t length, const uint8_t **octets, size_t *left)
{
    l->list[i] = *octets;
    l->length[i] = length < *left ? length : *left;
    *octets += l->length[i];
    *left -= l->length[i];
}

static size_t take_length(const uint8_t **octets, size_t *left)
{
    if (*left < 2)
        return 0;
    size_t length = (size_t)(*octets)[0] << 8 | (*octets)[1];
    *octets += 2;
    *left -= 2;
    return length;
}

void fuzz_plan(const uint8_t *octets, size_t length, bool as_records)
{
    struct lists l;
    uint8_t *ours[SLICES], *copies[SLICES];
    take(&l, FIRST, take_length(&octets, &length), &octets, &length);
    take(&l, SECOND, take_length(&octets, &length), &octets, &length);
    take(&l, BUFFER, length, &octets, &length);
    if (as_records) {
        make_records(&l, FIRST, 0);
        make_records(&l, SECOND, FOUR);
        make_pairs(&l);
    }
    for (size_t i = 0; i < SLICES; i++) {
        ours[i] = our_slice(i, l.length[i]);
        memcpy(ours[i], l.list[i], l.length[i]);
        memcpy(our_guard(i, l.length[i]), filled, GUARD);
        copies[i] = malloc(l.length[i] + 1);
        if (!copies[i])
            exit(2);
        memcpy(copies[i] + 1, l.list[i], l.length[i]);
    }
    uint64_t answer = stomp_check_plan(ours[FIRST], l.length[FIRST], ours[SECOND], l.length[SECOND], ours[BUFFER],
                                       l.length[BUFFER]);
    uint64_t other = plain_check_plan(copies[FIRST] + 1, l.length[FIRST], copies[SECOND] + 1, l.length[SECOND],
                                      copies[BUFFER] + 1, l.length[BUFFER]);
    if (answer != other)
        fail("the answers differ", answer, other);
    for (size_t i = 0; i < SLICES; i++) {
        if (memcmp(our_guard(i, l.length[i]), filled, GUARD) != 0)
            fail("an octet beside a slice is changed", answer, i);
        if (memcmp(ours[i], l.list[i], l.length[i]) != 0)
            fail("a slice that is only read is changed", answer, i);
        free(copies[i]);
    }
}
