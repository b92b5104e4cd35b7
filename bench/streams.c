/* Makes the streams. */
#include "streams.h"

#include <stdio.h>
#include <stdlib.h>
#include <string.h>

enum { STREAM_LENGTH = 8 << 20, LONGEST_FRAME = 49228 };
enum { LARGE_BODY = 16 << 10, TEXT_BODY = 13 << 10 };

/* A stream that is being made. Of a row of heart-beats, or of the captured items, so many are left. */
struct maker {
    uint8_t *octets;
    size_t length;
    uint64_t seed;
    size_t left;
    const char *beat;
    struct item captured[MOST_CAPTURED];
    size_t captured_count;
};

/* Puts one item. */
typedef void item_maker(struct maker *m);

uint64_t random_next(uint64_t *seed)
{
    uint64_t x = *seed += 0x9e3779b97f4a7c15;
    x = (x ^ x >> 30) * 0xbf58476d1ce4e5b9;
    x = (x ^ x >> 27) * 0x94d049bb133111eb;
    return x ^ x >> 31;
}

size_t random_between(uint64_t *seed, size_t low, size_t high)
{
    return low + (size_t)(random_next(seed) % (high - low + 1));
}

static size_t between(struct maker *m, size_t low, size_t high)
{
    return random_between(&m->seed, low, high);
}

static void put_octets(struct maker *m, const void *octets, size_t length)
{
    memcpy(m->octets + m->length, octets, length);
    m->length += length;
}

static void put(struct maker *m, const char *text)
{
    put_octets(m, text, strlen(text));
}

static void put_octet(struct maker *m, uint8_t x)
{
    m->octets[m->length++] = x;
}

/* Octets that are plain in a header line. */
static void put_plain(struct maker *m, size_t length)
{
    static const char plain[] = "abcdefghijklmnopqrstuvwxyzABCDEFGHIJKLMNOPQRSTUVWXYZ0123456789-_./ ";
    while (length-- > 0)
        put_octet(m, (uint8_t)plain[between(m, 0, sizeof plain - 2)]);
}

static void put_header(struct maker *m, size_t name_length, size_t value_length)
{
    put_plain(m, name_length);
    put_octet(m, ':');
    put_plain(m, value_length);
    put_octet(m, '\n');
}

static void put_short_header(struct maker *m)
{
    size_t name_length = between(m, 5, 25);
    put_header(m, name_length, between(m, 5, 25));
}

static void put_content_length(struct maker *m, size_t length)
{
    char line[40];
    snprintf(line, sizeof line, "content-length:%zu\n", length);
    put(m, line);
}

static void put_command(struct maker *m)
{
    put(m, between(m, 0, 1) ? "SEND\n" : "MESSAGE\n");
}

/* Command, five headers with content-length at any place among them, and the empty line. */
static void put_short_head(struct maker *m, size_t body_length)
{
    size_t place = between(m, 0, 4);
    put_command(m);
    for (size_t i = 0; i < 5; i++) {
        if (i == place)
            put_content_length(m, body_length);
        else
            put_short_header(m);
    }
    put_octet(m, '\n');
}

static void put_short_frame(struct maker *m)
{
    size_t body_length = between(m, 1, 64);
    put_short_head(m, body_length);
    put_plain(m, body_length);
    put_octet(m, 0);
}

/* Thirty lines of 200 to 500 octets, no body. */
static void put_long_headers(struct maker *m)
{
    put_command(m);
    for (size_t i = 0; i < 30; i++) {
        size_t line = between(m, 200, 500);
        size_t name = between(m, 10, 60);
        put_header(m, name, line - 1 - name);
    }
    put_octet(m, '\n');
    put_octet(m, 0);
}

static void put_escape(struct maker *m)
{
    static const char *const escapes[] = {"\\r", "\\n", "\\c", "\\\\"};
    put(m, escapes[between(m, 0, 3)]);
}

/* Ten lines whose values have an escape after each one to six octets. */
static void put_escapes(struct maker *m)
{
    put_command(m);
    for (size_t i = 0; i < 10; i++) {
        put_plain(m, between(m, 5, 25));
        put_octet(m, ':');
        for (size_t left = between(m, 10, 50); left > 0; left--) {
            put_plain(m, between(m, 1, 6));
            put_escape(m);
        }
        put_octet(m, '\n');
    }
    put_octet(m, '\n');
    put_octet(m, 0);
}

/* Ten lines as short as most are, no body. */
static void put_short_headers(struct maker *m)
{
    put_command(m);
    for (size_t i = 0; i < 10; i++)
        put_short_header(m);
    put_octet(m, '\n');
    put_octet(m, 0);
}

/* Ten lines with one escape in each value. */
static void put_single_escapes(struct maker *m)
{
    put_command(m);
    for (size_t i = 0; i < 10; i++) {
        size_t value = between(m, 10, 100);
        size_t before = between(m, 0, value);
        put_plain(m, between(m, 5, 25));
        put_octet(m, ':');
        put_plain(m, before);
        put_escape(m);
        put_plain(m, value - before);
        put_octet(m, '\n');
    }
    put_octet(m, '\n');
    put_octet(m, 0);
}

/* A character of two octets, or one of three: no surrogate, and none that fewer octets have. */
static void put_character(struct maker *m)
{
    if (between(m, 0, 1)) {
        size_t number = between(m, 0x80, 0x7ff);
        put_octet(m, (uint8_t)(0xc0 | number >> 6));
        put_octet(m, (uint8_t)(0x80 | (number & 0x3f)));
    } else {
        size_t number = between(m, 0x800, 0xcfff);
        put_octet(m, (uint8_t)(0xe0 | number >> 12));
        put_octet(m, (uint8_t)(0x80 | (number >> 6 & 0x3f)));
        put_octet(m, (uint8_t)(0x80 | (number & 0x3f)));
    }
}

/* Ten lines whose values are characters of two and three octets, and nothing else. */
static void put_characters(struct maker *m)
{
    put_command(m);
    for (size_t i = 0; i < 10; i++) {
        put_plain(m, between(m, 5, 25));
        put_octet(m, ':');
        for (size_t left = between(m, 5, 50); left > 0; left--)
            put_character(m);
        put_octet(m, '\n');
    }
    put_octet(m, '\n');
    put_octet(m, 0);
}

/* A large body of any octets. */
static void put_large_body(struct maker *m)
{
    put_short_head(m, LARGE_BODY);
    for (size_t i = 0; i < LARGE_BODY; i++)
        put_octet(m, (uint8_t)random_next(&m->seed));
    put_octet(m, 0);
}

/* A body of lines of text, without content-length. */
static void put_text_body(struct maker *m)
{
    put_command(m);
    for (size_t i = 0; i < 5; i++)
        put_short_header(m);
    put_octet(m, '\n');
    for (size_t left = TEXT_BODY; left > 0;) {
        size_t line = between(m, 1, 80);
        if (line > left)
            line = left;
        put_plain(m, line - 1);
        put_octet(m, '\n');
        left -= line;
    }
    put_octet(m, 0);
}

/* A captured item: all of them in any order, then all of them again in another. */
static void put_captured(struct maker *m)
{
    if (m->left == 0)
        m->left = m->captured_count;
    m->left--;
    size_t drawn = between(m, 0, m->left);
    struct item item = m->captured[drawn];
    m->captured[drawn] = m->captured[m->left];
    m->captured[m->left] = item;
    put_octets(m, item.octets, item.length);
}

/* A heart-beat: a single one, or one of a row of two to eight with the same octets. */
static void put_beat(struct maker *m)
{
    if (m->left == 0) {
        m->left = between(m, 0, 1) ? 1 : between(m, 2, 8);
        m->beat = between(m, 0, 1) ? "\n" : "\r\n";
    }
    m->left--;
    put(m, m->beat);
}

/* One to three lines as short as most are, no body. */
static void put_small_frame(struct maker *m)
{
    static const char *const commands[] = {"ACK\n", "BEGIN\n", "SUBSCRIBE\n"};
    put(m, commands[between(m, 0, 2)]);
    for (size_t left = between(m, 1, 3); left > 0; left--)
        put_short_header(m);
    put_octet(m, '\n');
    put_octet(m, 0);
}

/* Ten lines whose values are escapes, and nothing else. */
static void put_all_escapes(struct maker *m)
{
    put_command(m);
    for (size_t i = 0; i < 10; i++) {
        put_plain(m, between(m, 5, 25));
        put_octet(m, ':');
        for (size_t left = between(m, 10, 50); left > 0; left--)
            put_escape(m);
        put_octet(m, '\n');
    }
    put_octet(m, '\n');
    put_octet(m, 0);
}

/* Ten lines whose values have one escape in each ten octets. */
static void put_escapes_in_ten(struct maker *m)
{
    put_command(m);
    for (size_t i = 0; i < 10; i++) {
        put_plain(m, between(m, 5, 25));
        put_octet(m, ':');
        for (size_t left = between(m, 1, 10); left > 0; left--) {
            size_t before = between(m, 0, 8);
            put_plain(m, before);
            put_escape(m);
            put_plain(m, 8 - before);
        }
        put_octet(m, '\n');
    }
    put_octet(m, '\n');
    put_octet(m, 0);
}

/* Each stream: its name, what it is put together from, and its seed, which stays when its number changes. */
static const struct {
    const char *name;
    item_maker *put_item;
    uint64_t seed;
} plans[STREAMS] = {
    [SHORT_FRAMES] = {"1 short frames", put_short_frame, 1},
    [LONG_HEADERS] = {"2 long headers", put_long_headers, 2},
    [ESCAPES] = {"3 escapes", put_escapes, 3},
    [COUNTED_BODIES] = {"4 bodies with length", put_large_body, 4},
    [TEXT_BODIES] = {"5 text bodies", put_text_body, 5},
    [CAPTURED_ITEMS] = {"6 captured items", put_captured, 9},
    [HEART_BEATS] = {"7 heart-beats", put_beat, 10},
    [SMALL_FRAMES] = {"8 small frames", put_small_frame, 11},
    [ALL_ESCAPES] = {"9 all escapes", put_all_escapes, 12},
    [ESCAPES_IN_TEN] = {"10 an escape in ten", put_escapes_in_ten, 13},
    [SHORT_HEADERS] = {"11 short headers", put_short_headers, 6},
    [SINGLE_ESCAPES] = {"12 single escapes", put_single_escapes, 7},
    [CHARACTERS] = {"13 characters", put_characters, 8},
};

void make_stream(struct stream *made, size_t s, size_t length, const struct captured *captured)
{
    struct maker m = {.octets = malloc(length + LONGEST_FRAME), .seed = plans[s].seed};
    if (!m.octets) {
        fprintf(stderr, "bench: no memory for the streams\n");
        exit(2);
    }
    memcpy(m.captured, captured->items, captured->count * sizeof *captured->items);
    m.captured_count = captured->count;
    *made = (struct stream){plans[s].name, m.octets, 0, 0};
    while (m.length < length) {
        plans[s].put_item(&m);
        made->items++;
    }
    made->length = m.length;
}

void make_streams(struct stream streams[STREAMS], const struct captured *captured)
{
    for (size_t s = 0; s < STREAMS; s++)
        make_stream(&streams[s], s, STREAM_LENGTH, captured);
}
