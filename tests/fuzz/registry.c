/* The calls of a registry against those of bench/registry.c, one after another on one record, which is empty at
 * first. An input is a row of them: an octet, whose rest by 6 says which (open, close, publish, ask, end, or an
 * octet of the record changed), then what the call is given. A text is its length in an octet and its octets;
 * with the highest bit it is so many times the next octet. A session is an octet; those over 127 are the last
 * numbers. A change is a place in two octets, high first, and the octet; what a place is over 3,524 is the
 * record's length from then on. */
#include <stdio.h>
#include <stdlib.h>
#include <string.h>

#include "../../bench/baseline.h"
#include "../../include/stomp.h"
#include "fuzz.h"

enum { OPEN, CLOSE, PUBLISH, ASK, END, CHANGE, CALLS };
enum { REPEATED = 128, TEXTS = 3, LONGEST = STOMP_REGISTRY + 100 };

/* What is left of the input. */
struct rest {
    const uint8_t *octets;
    size_t length;
};

/* A call: its kind, and the texts and the session that it is given. */
struct call {
    unsigned which;
    uint8_t text[TEXTS][REPEATED];
    size_t length[TEXTS];
    uint64_t session;
};

/* The record of each side, and its length. */
struct records {
    uint8_t ours[LONGEST];
    uint8_t other[LONGEST];
    size_t length;
};

static void fail(const char *what, const struct call *c, uint64_t ours, uint64_t other)
{
    static const char *const names[] = {"open", "close", "publish", "ask", "end"};
    fprintf(stderr, "fuzz: registry: %s: %s: ours %#llx, the other %#llx; lengths %zu %zu %zu\n", names[c->which],
            what, (unsigned long long)ours, (unsigned long long)other, c->length[0], c->length[1], c->length[2]);
    abort();
}

static uint8_t take(struct rest *r)
{
    if (r->length == 0)
        return 0;
    r->length--;
    return *r->octets++;
}

static void take_text(struct rest *r, struct call *c, size_t i)
{
    uint8_t length = take(r);
    c->length[i] = length % REPEATED;
    if (length >= REPEATED) {
        memset(c->text[i], take(r), c->length[i]);
        return;
    }
    for (size_t k = 0; k < c->length[i]; k++)
        c->text[i][k] = take(r);
}

static void take_session(struct rest *r, struct call *c)
{
    uint8_t octet = take(r);
    c->session = octet >= REPEATED ? ~(uint64_t)0 - (octet - REPEATED) : octet;
}

static void change(struct rest *r, struct records *of)
{
    size_t at = (size_t)take(r) << 8;
    at |= take(r);
    if (at >= STOMP_REGISTRY) {
        of->length = (at - STOMP_REGISTRY) % (LONGEST + 1);
        return;
    }
    of->ours[at] = of->other[at] = take(r);
}

static uint64_t call_ours(const struct call *c, uint8_t *registry, size_t length, uint8_t *const text[TEXTS])
{
    switch (c->which) {
    case OPEN:
        return stomp_registry_open(registry, length, text[0], c->length[0]);
    case CLOSE:
        return stomp_registry_close(registry, length, text[0], c->length[0]);
    case PUBLISH:
        return stomp_registry_publish(registry, length, text[0], c->length[0], text[1], c->length[1], text[2],
                                      c->length[2], c->session);
    case ASK:
        return stomp_registry_ask(registry, length, text[0], c->length[0], text[1], c->length[1]);
    default:
        return stomp_registry_end(registry, length, c->session);
    }
}

static uint64_t call_baseline(const struct call *c, uint8_t *registry, size_t length, uint8_t *const text[TEXTS])
{
    switch (c->which) {
    case OPEN:
        return baseline_registry_open(registry, length, text[0], c->length[0]);
    case CLOSE:
        return baseline_registry_close(registry, length, text[0], c->length[0]);
    case PUBLISH:
        return baseline_registry_publish(registry, length, text[0], c->length[0], text[1], c->length[1], text[2],
                                         c->length[2], c->session);
    case ASK:
        return baseline_registry_ask(registry, length, text[0], c->length[0], text[1], c->length[1]);
    default:
        return baseline_registry_end(registry, length, c->session);
    }
}

/* A copy on the heap that ends where its octets do, from the second octet on. */
static uint8_t *copied(const uint8_t *octets, size_t length)
{
    uint8_t *copy = malloc(length + 1);
    if (!copy)
        exit(2);
    memcpy(copy + 1, octets, length);
    return copy;
}

/* The same on the other side. */
static uint64_t call_other(const struct call *c, struct records *of)
{
    uint8_t *registry = copied(of->other, of->length);
    uint8_t *copies[TEXTS], *text[TEXTS];
    for (size_t i = 0; i < TEXTS; i++) {
        copies[i] = copied(c->text[i], c->length[i]);
        text[i] = copies[i] + 1;
    }
    uint64_t answer = call_baseline(c, registry + 1, of->length, text);
    memcpy(of->other, registry + 1, of->length);
    for (size_t i = 0; i < TEXTS; i++)
        free(copies[i]);
    free(registry);
    return answer;
}

/* What asking found must be inside the record, and have the length of a text. */
static void check_found(const struct call *c, const struct records *of, uint64_t answer)
{
    size_t length = stomp_registry_length(answer);
    if (c->which != ASK || length == 0)
        return;
    if (length > STOMP_REGISTRY_MAX_TEXT || stomp_registry_start(answer) + length > of->length)
        fail("what is found is not in the record", c, answer, 0);
}

/* Makes the call on both sides, and ends the program where they differ. */
static void agree(const struct call *c, struct records *of)
{
    uint8_t *registry = our_slice(BUFFER, of->length);
    uint8_t *text[TEXTS];
    static const size_t rooms[TEXTS] = {FIRST, SECOND, FOURTH};
    memcpy(registry, of->ours, of->length);
    memcpy(our_guard(BUFFER, of->length), filled, GUARD);
    for (size_t i = 0; i < TEXTS; i++) {
        text[i] = our_slice(rooms[i], c->length[i]);
        memcpy(text[i], c->text[i], c->length[i]);
        memcpy(our_guard(rooms[i], c->length[i]), filled, GUARD);
    }
    uint64_t ours = call_ours(c, registry, of->length, text);
    uint64_t other = call_other(c, of);
    if (ours != other)
        fail("the answers differ", c, ours, other);
    if (memcmp(registry, of->other, of->length) != 0)
        fail("the records differ", c, ours, other);
    if (stomp_registry_code(ours) != 0 && memcmp(registry, of->ours, of->length) != 0)
        fail("a refusal changes the record", c, ours, other);
    check_found(c, of, ours);
    for (size_t i = 0; i < TEXTS; i++)
        if (memcmp(text[i], c->text[i], c->length[i]) != 0 ||
            memcmp(our_guard(rooms[i], c->length[i]), filled, GUARD) != 0)
            fail("a text or an octet beside it is changed", c, ours, i);
    if (memcmp(our_guard(BUFFER, of->length), filled, GUARD) != 0)
        fail("an octet beside the record is changed", c, ours, other);
    memcpy(of->ours, registry, of->length);
}

void fuzz_registry(const uint8_t *octets, size_t length)
{
    struct rest r = {octets, length};
    static struct records of;
    memset(&of, 0, sizeof of);
    of.length = STOMP_REGISTRY;
    while (r.length > 0) {
        struct call c = {.which = take(&r) % CALLS};
        if (c.which == CHANGE) {
            change(&r, &of);
            continue;
        }
        if (c.which != END)
            take_text(&r, &c, 0);
        if (c.which == PUBLISH || c.which == ASK)
            take_text(&r, &c, 1);
        if (c.which == PUBLISH)
            take_text(&r, &c, 2);
        if (c.which == PUBLISH || c.which == END)
            take_session(&r, &c);
        agree(&c, &of);
    }
}
