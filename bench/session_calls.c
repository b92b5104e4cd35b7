/* The session by hand on the calls of the program session_calls, with the same output, or, where there
 * are arguments, on those of the program session_bench. */
#include <stdio.h>
#include <stdlib.h>
#include <string.h>

#include "baseline.h"
#include "rules.h"
#include "session.h"

enum { MOST_TEXT = 65536, BENCH_BLOCK = 256 };

/* The kinds of calls. The session is altered where it lies by all of them. */
enum kind {
    MAKE,
    FRAME,
    BEAT,
    TIMED_OUT,
    SET,
    FRAME_IN_PLACE,
    BEAT_IN_PLACE,
    TIMED_OUT_IN_PLACE,
    DELIVER,
    DELIVER_IN_PLACE,
    PENDING
};

/* ---- calls on standard input */

static void read_octets(void *to, size_t length)
{
    if (fread(to, 1, length, stdin) != length) {
        fprintf(stderr, "session: a call is cut\n");
        exit(1);
    }
}

static uint32_t read_number(void)
{
    uint8_t octets[4];
    read_octets(octets, sizeof octets);
    return (uint32_t)octets[0] << 24 | (uint32_t)octets[1] << 16 | (uint32_t)octets[2] << 8 | octets[3];
}

/* The length of a block or a text, cut to the most. */
static size_t read_length(void)
{
    size_t length = read_number();
    return length < MOST_TEXT ? length : MOST_TEXT;
}

static void read_flags(bool flags[3])
{
    uint8_t octets[3];
    read_octets(octets, sizeof octets);
    for (size_t v = 0; v < 3; v++)
        flags[v] = octets[v] != 0;
}

static void write_number(uint32_t n)
{
    for (int shift = 24; shift >= 0; shift -= 8)
        putchar((int)(n >> shift & 255));
}

static void write_flags(const bool flags[3])
{
    for (size_t v = 0; v < 3; v++)
        putchar(flags[v]);
}

static void read_record(struct session *s)
{
    read_octets(&s->phase, 1);
    s->sends = read_number();
    s->wants = read_number();
    read_flags(s->offered);
    read_flags(s->shared);
    s->inbound = read_number();
    s->outbound = read_number();
    s->last_heard = read_number();
    read_octets(s->subscriptions, sizeof s->subscriptions);
    read_octets(s->subscription_lengths, sizeof s->subscription_lengths);
    read_octets(s->transactions, sizeof s->transactions);
    read_octets(s->transaction_lengths, sizeof s->transaction_lengths);
    read_octets(s->labels, sizeof s->labels);
    read_octets(s->label_lengths, sizeof s->label_lengths);
    read_octets(s->owners, sizeof s->owners);
    read_octets(s->modes, sizeof s->modes);
    read_octets(&s->pending, 1);
}

static void write_record(const struct session *s)
{
    putchar(s->phase);
    write_number(s->sends);
    write_number(s->wants);
    write_flags(s->offered);
    write_flags(s->shared);
    write_number(s->inbound);
    write_number(s->outbound);
    write_number(s->last_heard);
    fwrite(s->subscriptions, 1, sizeof s->subscriptions, stdout);
    fwrite(s->subscription_lengths, 1, sizeof s->subscription_lengths, stdout);
    fwrite(s->transactions, 1, sizeof s->transactions, stdout);
    fwrite(s->transaction_lengths, 1, sizeof s->transaction_lengths, stdout);
    fwrite(s->labels, 1, sizeof s->labels, stdout);
    fwrite(s->label_lengths, 1, sizeof s->label_lengths, stdout);
    fwrite(s->owners, 1, sizeof s->owners, stdout);
    fwrite(s->modes, 1, sizeof s->modes, stdout);
    putchar(s->pending);
}

/* The refusals are above the other answers, which have a word each. */
static void write_answer(unsigned answer, const char *const words[2])
{
    if (answer > 1)
        printf("refused %u", answer);
    else
        printf("%s", words[answer]);
}

static void frame_call(struct session *s)
{
    static const char *const words[2] = {"accepted", "accepted receipt"};
    static uint8_t block[MOST_TEXT];
    uint32_t command = read_number();
    uint32_t time = read_number();
    size_t length = read_length();
    read_octets(block, length);
    struct later later = {0, 0, 0};
    write_answer(session_frame(s, command, block, length, time, &later), words);
    if (later.destinations + later.ids + later.transactions > 0)
        printf(" overwritten %zu %zu %zu", later.destinations, later.ids, later.transactions);
}

static void make_call(struct session *s)
{
    static const char *const words[2] = {"made", ""};
    bool offered[3];
    uint32_t sends = read_number();
    uint32_t wants = read_number();
    read_flags(offered);
    write_answer(session_make(s, sends, wants, offered), words);
}

static void deliver_call(struct session *s)
{
    static const char *const words[2] = {"recorded", ""};
    static uint8_t texts[2][MOST_TEXT];
    struct octets subscription = {texts[0], read_length()};
    struct octets label = {texts[1], read_length()};
    read_octets(texts[0], subscription.length);
    read_octets(texts[1], label.length);
    write_answer(session_deliver(s, subscription, label), words);
}

static void write_hexadecimal(struct octets text)
{
    for (size_t i = 0; i < text.length; i++)
        printf("%02x", text.at[i]);
}

static void pending_call(const struct session *s)
{
    static const char *const words[2] = {"none", "pending"};
    struct delivery found;
    unsigned answer = session_pending(s, read_number(), &found);
    write_answer(answer, words);
    if (answer == YES) {
        printf(" %u ", found.mode);
        write_hexadecimal(found.subscription);
        putchar(' ');
        write_hexadecimal(found.label);
    }
}

/* A call of that kind, and its answer. */
static void one_call(struct session *s, int kind)
{
    static const char *const accepted[2] = {"accepted", ""};
    static const char *const answers[2] = {"no", "yes"};
    switch (kind) {
    case MAKE: make_call(s); break;
    case FRAME:
    case FRAME_IN_PLACE: frame_call(s); break;
    case BEAT:
    case BEAT_IN_PLACE: write_answer(session_heart_beat(s, read_number()), accepted); break;
    case TIMED_OUT:
    case TIMED_OUT_IN_PLACE: write_answer(session_timed_out(s, read_number()), answers); break;
    case SET:
        read_record(s);
        printf("set");
        break;
    case DELIVER:
    case DELIVER_IN_PLACE: deliver_call(s); break;
    case PENDING: pending_call(s); break;
    default: fprintf(stderr, "session: a call has an unknown kind\n"); exit(1);
    }
}

static const char *highest_shared(const struct session *s)
{
    return s->shared[2] ? "1.2" : s->shared[1] ? "1.1" : s->shared[0] ? "1.0" : "none";
}

static void make_1_2(struct session *s)
{
    static const bool only_1_2[3] = {false, false, true};
    session_make(s, 0, 0, only_1_2);
}

static void answer_calls(void)
{
    struct session s;
    make_1_2(&s);
    for (int kind; (kind = getchar()) != EOF;) {
        one_call(&s, kind);
        printf(" version %s\n", highest_shared(&s));
        write_record(&s);
        putchar('\n');
    }
}

/* ---- many calls, to be timed */

struct block {
    uint8_t octets[BENCH_BLOCK];
    size_t length;
};

static struct block block_of(const char *frame)
{
    struct block b;
    const uint8_t *octets = (const uint8_t *)frame;
    b.length = (size_t)baseline_decode(octets, strlen(frame) + 1, b.octets, sizeof b.octets);
    return b;
}

static struct block numbered(struct block b, unsigned n)
{
    b.octets[b.length - 2] = (uint8_t)('0' + n / 10);
    b.octets[b.length - 1] = (uint8_t)('0' + n % 10);
    return b;
}

#define LONG_ID "name-service-of-the-ice-models00"
#define LONG_LABEL "delivery-to-the-ice-models-no-00"

static struct block subscription(bool is_long)
{
    return block_of(is_long ? "SUBSCRIBE\ndestination:/names/ocean\nid:" LONG_ID "\n\n"
                            : "SUBSCRIBE\ndestination:/names/ocean\nid:sub-00\n\n");
}

/* The same in client mode. */
static struct block client_subscription(bool is_long)
{
    return block_of(is_long ? "SUBSCRIBE\ndestination:/names/ocean\nack:client\nid:" LONG_ID "\n\n"
                            : "SUBSCRIBE\ndestination:/names/ocean\nack:client\nid:sub-00\n\n");
}

static struct block transaction(bool is_long)
{
    return block_of(is_long ? "BEGIN\ntransaction:" LONG_ID "\n\n" : "BEGIN\ntransaction:txn-00\n\n");
}

#define SEND_HEADERS "SEND\ndestination:/names/ocean\ncontent-type:text/plain\nreceipt:17\ntransaction:"

static struct block sending(bool is_long)
{
    return block_of(is_long ? SEND_HEADERS LONG_ID "\n\n" : SEND_HEADERS "txn-00\n\n");
}

static void call(struct session *s, uint32_t command, struct block b)
{
    struct later later;
    session_frame(s, command, b.octets, b.length, 0, &later);
}

/* A text with two digits at its end. */
static struct block numbered_text(const char *text, unsigned n)
{
    struct block b;
    b.length = strlen(text);
    memcpy(b.octets, text, b.length);
    return numbered(b, n);
}

/* 64 pending deliveries, each of the next subscription. */
static void deliver_all(struct session *s, bool is_long)
{
    for (unsigned n = 0; n < DELIVERIES; n++) {
        struct block id = numbered_text(is_long ? LONG_ID : "sub-00", n % SUBSCRIPTIONS);
        struct block label = numbered_text(is_long ? LONG_LABEL : "m-1000", n);
        session_deliver(s, (struct octets){id.octets, id.length}, (struct octets){label.octets, label.length});
    }
}

/* With all places of ids taken, and those of deliveries too where they are asked for. */
static void prepare(struct session *s, bool is_long, bool with_deliveries)
{
    struct block b = with_deliveries ? client_subscription(is_long) : subscription(is_long);
    make_1_2(s);
    call(s, STOMP_COMMAND_CONNECT, block_of("CONNECT\naccept-version:1.2\nhost:names\n\n"));
    for (unsigned n = 0; n < SUBSCRIPTIONS; n++)
        call(s, STOMP_COMMAND_SUBSCRIBE, numbered(b, n));
    for (unsigned n = 0; n < TRANSACTIONS; n++)
        call(s, STOMP_COMMAND_BEGIN, numbered(transaction(is_long), n));
    if (with_deliveries)
        deliver_all(s, is_long);
}

/* The cases: SEND, or UNSUBSCRIBE and SUBSCRIBE in turn, with short ids and with long ones; SEND with
 * pending deliveries, with short ids and labels and with long ones. */
enum { SHORT_SEND, SHORT_SUBSCRIBE, LONG_SEND, LONG_SUBSCRIBE, SHORT_PENDING, LONG_PENDING };

static void many_calls(unsigned which, uint32_t calls)
{
    struct session s;
    bool is_long = which == LONG_SEND || which == LONG_SUBSCRIBE || which == LONG_PENDING;
    bool subscribes = which == SHORT_SUBSCRIBE || which == LONG_SUBSCRIBE;
    uint32_t commands[2] = {STOMP_COMMAND_SEND, STOMP_COMMAND_SEND};
    struct block b = numbered(sending(is_long), 3);
    struct later later;
    uint64_t accepted = 0;
    prepare(&s, is_long, which >= SHORT_PENDING);
    if (subscribes) {
        commands[0] = STOMP_COMMAND_UNSUBSCRIBE;
        commands[1] = STOMP_COMMAND_SUBSCRIBE;
        b = numbered(subscription(is_long), SUBSCRIPTIONS - 1);
    }
    for (uint32_t i = 0; i < calls; i++)
        accepted += session_frame(&s, commands[i % 2], b.octets, b.length, i, &later) <= ACCEPTED_RECEIPT;
    if (s.pending != (which >= SHORT_PENDING ? DELIVERIES : 0)) {
        fprintf(stderr, "session: %u deliveries are pending\n", s.pending);
        exit(1);
    }
    printf("%llu %lu\n", (unsigned long long)accepted, (unsigned long)s.last_heard);
}

int main(int argc, char **argv)
{
    if (argc == 1)
        answer_calls();
    else if (argc == 3)
        many_calls((unsigned)strtoul(argv[2], NULL, 10), (uint32_t)strtoul(argv[1], NULL, 10));
    else
        return 2;
    return 0;
}
