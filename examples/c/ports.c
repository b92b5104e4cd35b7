/* Reads a frame that a relay passed on, finds its first port and how many follow, writes a frame that
 * answers it, asks which of some names a pattern matches, and checks a plan. */
#include <stdio.h>
#include <stdlib.h>
#include <string.h>

#include "stomp.h"

/* The relay put a fresh port in front and kept the old one below. The body holds octet 0. */
static const uint8_t message[] = "MESSAGE\n"
                                 "destination:/ports/ocean\n"
                                 "message-id:7\n"
                                 "subscription:ice\n"
                                 "port:tcp\\cocean-2\\c4711\n"
                                 "port:tcp\\cocean-1\\c4710\n"
                                 "content-length:9\n"
                                 "\n"
                                 "temp\0salt";

/* All of it; the octet 0 that ends the frame is the one that ends the text in C. */
enum { MESSAGE_LENGTH = sizeof message };

/* Two messages that wait, 7 and 8; two members, 1 and 2, with room for one each; and who gets what. */
static const uint8_t waiting[] = "\0\0\0\7\0\16port.ocean.sst"
                                 "\0\0\0\10\0\16port.ocean.ssh";
static const uint8_t members[] = "\0\0\0\1\0\14port.ocean.#\0\0\0\1"
                                 "\0\0\0\2\0\12port.*.sst\0\0\0\1";
static const uint8_t plan[] = "\0\0\0\10\0\0\0\1"
                              "\0\0\0\7\0\0\0\2";

/* A header block and the length in use. */
struct block {
    uint8_t octets[STOMP_MAX_BLOCK];
    size_t length;
};

/* Ends the program: the call was refused with this number, or found nothing if it is 0. */
static void stop(const char *call, unsigned code, size_t place)
{
    fprintf(stderr, "%s: number %u, place %zu\n", call, code, place);
    exit(1);
}

/* Prints what can be printed, and the number of any other octet. */
static void print_octets(const uint8_t *octets, size_t length)
{
    for (size_t i = 0; i < length; i++) {
        if (octets[i] == '\n' || (octets[i] >= ' ' && octets[i] <= '~'))
            putchar(octets[i]);
        else
            printf("<%u>", octets[i]);
    }
    putchar('\n');
}

/* Adds an entry at the end. */
static void add(struct block *b, const char *name, const uint8_t *value, size_t value_length)
{
    size_t name_length = strlen(name);
    uint8_t *record = b->octets + b->length;
    if (name_length > 65535 || value_length > 65535 ||
        sizeof b->octets - b->length < 6 + name_length + value_length)
        stop("add", STOMP_DECODE_SHORT_BLOCK, b->length);
    record[0] = 72;
    record[1] = 68;
    record[2] = (uint8_t)(name_length >> 8);
    record[3] = (uint8_t)name_length;
    record[4] = (uint8_t)(value_length >> 8);
    record[5] = (uint8_t)value_length;
    memcpy(record + 6, name, name_length);
    memcpy(record + 6 + name_length, value, value_length);
    b->length += 6 + name_length + value_length;
}

/* Asks whether the pattern matches the name. */
static uint64_t match(const char *name, const char *pattern)
{
    return stomp_match((const uint8_t *)name, strlen(name), (const uint8_t *)pattern, strlen(pattern));
}

int main(void)
{
    static const char *const names[] = {"port.ocean", "port.ocean.sst.1", "port.ice.1"};
    static const char name[] = "port", where[] = "/ports/ice";
    static const uint8_t text[] = "salt";
    static struct block read, reply;
    static uint8_t target[STOMP_MAX_FRAME];

    uint64_t parsed = stomp_parse(message, MESSAGE_LENGTH);
    if (stomp_parse_kind(parsed) != STOMP_FRAME)
        stop("parse", stomp_parse_code(parsed), stomp_parse_offset(parsed));
    const uint8_t *body = message + stomp_parse_body(parsed);
    size_t body_length = stomp_parse_body_length(parsed);
    printf("read a frame of %zu octets: command %u, %zu headers, a body of %zu octets at %zu\n",
           stomp_parse_used(parsed), (unsigned)stomp_parse_command(parsed), stomp_parse_headers(parsed),
           body_length, stomp_parse_body(parsed));
    print_octets(body, body_length);

    uint64_t decoded = stomp_decode(message, stomp_parse_used(parsed), read.octets, sizeof read.octets);
    if (stomp_refused(decoded))
        stop("decode", stomp_code(decoded), 0);
    read.length = stomp_length(decoded);
    printf("decoded its headers to %zu octets\n", read.length);

    uint64_t found = stomp_find(read.octets, read.length, (const uint8_t *)name, strlen(name));
    if (!stomp_found(found))
        stop("find", stomp_find_code(found), 0);
    const uint8_t *port = read.octets + stomp_find_start(found);
    size_t port_length = stomp_find_length(found, read.octets, strlen(name));
    printf("found the first port, %zu octets\n", port_length);
    print_octets(port, port_length);

    /* What the relay put its port before is still there, and no longer counts. */
    uint64_t later = stomp_later(read.octets, read.length, (const uint8_t *)name, strlen(name));
    if (stomp_later_code(later))
        stop("later", stomp_later_code(later), 0);
    printf("later ports that no longer count: %lu\n", (unsigned long)later);

    add(&reply, "destination", (const uint8_t *)where, strlen(where));
    add(&reply, "port", port, port_length);
    uint64_t written = stomp_encode(STOMP_COMMAND_SEND, reply.octets, reply.length, body, body_length,
                                    target, sizeof target);
    if (stomp_refused(written))
        stop("encode", stomp_code(written), stomp_index(written));
    printf("wrote a frame of %zu octets\n", stomp_length(written));
    print_octets(target, stomp_length(written));

    /* A body without octet 0 needs no line with its length; an option asks for one. */
    written = stomp_encode(STOMP_COMMAND_SEND, reply.octets, reply.length, text, sizeof text - 1, target,
                           sizeof target);
    printf("with the body salt it has %zu octets", stomp_length(written));
    written = stomp_encode_with(STOMP_COUNTED, STOMP_COMMAND_SEND, reply.octets, reply.length, text,
                                sizeof text - 1, target, sizeof target);
    printf(", and %zu where its length is asked for\n", stomp_length(written));

    /* All ports of the ocean: its words, and none or more after them. */
    uint64_t answer;
    for (size_t i = 0; i < sizeof names / sizeof *names; i++) {
        answer = match(names[i], "port.ocean.#");
        if (stomp_refused(answer))
            stop("match", stomp_code(answer), 0);
        printf("port.ocean.# %s %s\n", stomp_matches(answer) ? "matches" : "does not match", names[i]);
    }

    /* Two messages wait for the ice members; the plan hands out both, then forgets one. */
    answer = stomp_check_plan(waiting, sizeof waiting - 1, members, sizeof members - 1, plan,
                              sizeof plan - 1);
    if (stomp_plan_code(answer))
        stop("check_plan", stomp_plan_code(answer), stomp_plan_index(answer));
    printf("the plan is accepted\n");
    answer = stomp_check_plan(waiting, sizeof waiting - 1, members, sizeof members - 1, plan,
                              STOMP_PLAN_PAIR);
    printf("with one pair it is refused with %u: message %lu\n", stomp_plan_code(answer),
           (unsigned long)stomp_plan_message(answer));

    /* What a refusal looks like: a command without a body, and octets that begin no frame. */
    written = stomp_encode(STOMP_COMMAND_ACK, reply.octets, reply.length, body, body_length, target,
                           sizeof target);
    printf("as an ACK it is refused with %u\n", stomp_code(written));
    parsed = stomp_parse((const uint8_t *)"SENT", 4);
    printf("SENT is refused with %u at %zu\n", stomp_parse_code(parsed), stomp_parse_offset(parsed));
    printf("the name port..1 is refused with %u\n", stomp_code(match("port..1", "#")));
    return 0;
}
