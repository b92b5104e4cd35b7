/* Reads the stream of a 1.1 client in pieces, as a server does: the opening frame by version 1.2, and from there
 * on all by the version that is chosen. */
#include <stdio.h>
#include <string.h>

#include "stomp.h"

/* What the client writes, in the pieces that arrive. The second piece has the end of CONNECT and the beginning
 * of the next frame. The value of the label ends in octet 13, which is an ordinary octet in 1.1. In the last
 * frame is the escape of octet 13, which 1.1 does not have. */
#define PIECE(text) {text, sizeof text - 1}
static const struct {
    const char *octets;
    size_t length;
} pieces[] = {
    PIECE("CONNECT\r\naccept-version:1.0,1.1\r\nho"),
    PIECE("st:ocean\r\n\r\n\0SEND\ndestination:/po"),
    PIECE("rts/ice\nlabel:run 7\r"),
    PIECE("\n\nnode9\0\nACK\nsubscription:0\nmessage-id:7\n\n\0"),
    PIECE("SEND\ndestination:/a\\rb\n\n\0"),
};

/* Prints what can be printed, and the number of any other octet. */
static void print_octets(const uint8_t *octets, size_t length)
{
    for (size_t i = 0; i < length; i++) {
        if (octets[i] >= ' ' && octets[i] <= '~')
            putchar(octets[i]);
        else
            printf("<%u>", octets[i]);
    }
    putchar('\n');
}

static size_t number_at(const uint8_t *octets)
{
    return (size_t)octets[0] << 8 | octets[1];
}

/* The entries of a block, one line each. */
static void print_entries(const uint8_t *block, size_t used)
{
    for (size_t at = 0; at < used;) {
        size_t name = number_at(block + at + 2);
        size_t value = number_at(block + at + 4);
        printf("  ");
        print_octets(block + at + 6, name);
        printf("    ");
        print_octets(block + at + 6 + name, value);
        at += 6 + name + value;
    }
}

/* Whether a version is one of the items of accept-version, which have commas between them. */
static int offers(const uint8_t *value, size_t length, const char *version)
{
    size_t start = 0;
    for (size_t i = 0; i <= length; i++) {
        if (i < length && value[i] != ',')
            continue;
        if (i - start == strlen(version) && memcmp(value + start, version, i - start) == 0)
            return 1;
        start = i + 1;
    }
    return 0;
}

/* Adds an entry at the end of a block: the block's new length. */
static size_t add(uint8_t *block, size_t used, const char *name, const char *value)
{
    size_t name_length = strlen(name), value_length = strlen(value);
    uint8_t head[6] = {72, 68, 0, 0, 0, 0};
    head[3] = (uint8_t)name_length;
    head[5] = (uint8_t)value_length;
    memcpy(block + used, head, sizeof head);
    memcpy(block + used + sizeof head, name, name_length);
    memcpy(block + used + sizeof head + name_length, value, value_length);
    return used + sizeof head + name_length + value_length;
}

/* The opening frame, which is read by 1.2: the options for all that follows. */
static uint32_t open_connection(const uint8_t *frame, size_t length)
{
    static const char name[] = "accept-version";
    static uint8_t block[STOMP_MAX_BLOCK], answer_block[64], target[STOMP_MAX_FRAME];
    size_t used = stomp_length(stomp_decode(frame, length, block, sizeof block));
    uint64_t found = stomp_find(block, used, (const uint8_t *)name, sizeof name - 1);
    const uint8_t *value = block + stomp_find_start(found);
    size_t value_length = stomp_find_length(found, block, sizeof name - 1);
    uint32_t options = 0;
    const char *version = "1.2";
    if (!offers(value, value_length, "1.2")) {
        /* A server that finds neither answers with an ERROR and closes the connection. */
        if (!offers(value, value_length, "1.1"))
            return 0;
        options = STOMP_1_1;
        version = "1.1";
    }
    size_t entries = add(answer_block, 0, "version", version);
    uint64_t written = stomp_encode_with(options, STOMP_COMMAND_CONNECTED, answer_block, entries, NULL, 0, target,
                                         sizeof target);
    printf("the answer is: ");
    print_octets(target, stomp_length(written));
    return options;
}

/* A frame after the opening one, read and written again by the version that was chosen. */
static void print_frame(uint32_t options, const uint8_t *frame, uint64_t answer)
{
    static uint8_t block[STOMP_MAX_BLOCK], target[STOMP_MAX_FRAME];
    size_t length = stomp_feed_used(answer);
    size_t used = stomp_length(stomp_decode_with(options, frame, length, block, sizeof block));
    uint64_t again = stomp_encode_with(options, stomp_feed_command(answer), block, used,
                                       frame + stomp_feed_body(answer), stomp_feed_body_length(answer), target,
                                       sizeof target);
    print_entries(block, used);
    if (stomp_length(again) == length && memcmp(target, frame, length) == 0)
        printf("  encoded again it is the same\n");
}

int main(void)
{
    static uint8_t buffer[STOMP_FEED_BUFFER];
    uint8_t state[STOMP_FEED_STATE] = {0};
    uint32_t options = 0;
    int open = 0;
    for (size_t i = 0; i < sizeof pieces / sizeof *pieces; i++) {
        const uint8_t *piece = (const uint8_t *)pieces[i].octets;
        size_t taken = 0;
        for (;;) {
            uint64_t answer = stomp_feed(state, sizeof state, buffer, sizeof buffer, piece + taken,
                                         pieces[i].length - taken);
            taken += stomp_feed_taken(answer);
            if (stomp_feed_kind(answer) == STOMP_INCOMPLETE)
                break;
            if (stomp_feed_kind(answer) == STOMP_INVALID) {
                printf("refused with %u at %zu, after: ", stomp_feed_code(answer), stomp_feed_offset(answer));
                print_octets(buffer, stomp_feed_offset(answer));
                printf("told after a refusal: %d\n", (int)stomp_feed_tell(state, sizeof state, 0));
                return 0;
            }
            if (stomp_feed_kind(answer) == STOMP_HEART_BEAT) {
                printf("a heart-beat of %zu octets\n", stomp_feed_used(answer));
                continue;
            }
            printf("a frame of %zu octets: command %u, %zu headers\n", stomp_feed_used(answer),
                   (unsigned)stomp_feed_command(answer), stomp_feed_headers(answer));
            if (open) {
                print_frame(options, buffer, answer);
                continue;
            }
            /* The opening frame. The version is told here, between two items and before the rest of the piece. */
            open = 1;
            options = open_connection(buffer, stomp_feed_used(answer));
            printf("told between items: %d\n", (int)stomp_feed_tell(state, sizeof state, options));
        }
        /* The third piece ends in a header line. There it is too late to tell another version: nothing changes. */
        if (i == 2)
            printf("told inside an item: %d\n", (int)stomp_feed_tell(state, sizeof state, 0));
    }
    return 0;
}
