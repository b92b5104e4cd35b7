/* Decoding by hand: a frame's lines as a header block. Built in two variants: octet by octet, and with memchr and memcpy. */
#include "baseline.h"

#include <string.h>

#include "rules.h"

/* What the octet after a backslash stands for. */
static const uint8_t meanings[256] = {['c'] = COLON, ['n'] = LF, ['r'] = CR, [BACKSLASH] = BACKSLASH};

/* Writes the head of a record. */
static inline void put_head(uint8_t *to, size_t name, size_t value)
{
    to[0] = 72;
    to[1] = 68;
    to[2] = (uint8_t)(name >> 8);
    to[3] = (uint8_t)name;
    to[4] = (uint8_t)(value >> 8);
    to[5] = (uint8_t)value;
}

#ifdef WITH_MEMCHR

/* The parts of a header line. */
struct line {
    const uint8_t *colon;
    const uint8_t *end;
    const uint8_t *next;
};

/* The line that stands here. It is one of a frame, so it has a colon and an end. */
static inline struct line line_at(const uint8_t *at, const uint8_t *end)
{
    const uint8_t *feed = memchr(at, LF, (size_t)(end - at));
    return (struct line){memchr(at, COLON, (size_t)(feed - at)), feed - (feed[-1] == CR), feed + 1};
}

/* The length of the records of so many lines. */
static size_t records_length(const uint8_t *at, const uint8_t *end, size_t lines, bool escapes)
{
    size_t total = 0;
    for (; lines > 0; lines--) {
        struct line l = line_at(at, end);
        total += HEAD + (size_t)(l.end - at) - 1;
        while (escapes && (at = memchr(at, BACKSLASH, (size_t)(l.end - at)))) {
            total--;
            at += 2;
        }
        at = l.next;
    }
    return total;
}

/* Writes a name or a value. */
static inline uint8_t *write_text(uint8_t *to, const uint8_t *at, const uint8_t *end, bool escapes)
{
    while (escapes) {
        const uint8_t *back = memchr(at, BACKSLASH, (size_t)(end - at));
        if (!back)
            break;
        memcpy(to, at, (size_t)(back - at));
        to += back - at;
        *to++ = meanings[back[1]];
        at = back + 2;
    }
    memcpy(to, at, (size_t)(end - at));
    return to + (end - at);
}

/* Writes the records of so many lines. Few lines have a backslash, so it is looked for in the whole line. */
static size_t write_records(const uint8_t *at, const uint8_t *end, size_t lines, bool escapes, uint8_t *block)
{
    uint8_t *to = block;
    for (; lines > 0; lines--) {
        struct line l = line_at(at, end);
        bool some = escapes && memchr(at, BACKSLASH, (size_t)(l.end - at));
        uint8_t *value = write_text(to + HEAD, at, l.colon, some);
        uint8_t *behind = write_text(value, l.colon + 1, l.end, some);
        put_head(to, (size_t)(value - to - HEAD), (size_t)(behind - value));
        to = behind;
        at = l.next;
    }
    return (size_t)(to - block);
}

/* A record is at most four octets longer than its line, so only a short block is measured against them. */
uint64_t baseline_decode_memchr(const uint8_t *frame, size_t length, uint8_t *block, size_t block_length)
{
    uint64_t answer = baseline_parse_memchr(frame, length);
    if (stomp_parse_kind(answer) != STOMP_FRAME || stomp_parse_used(answer) != length)
        return (uint64_t)STOMP_DECODE_NOT_A_FRAME << 16;
    bool escapes = has_escapes(stomp_parse_command(answer));
    size_t lines = stomp_parse_headers(answer);
    const uint8_t *end = frame + length;
    const uint8_t *at = (const uint8_t *)memchr(frame, LF, length) + 1;
    if (length + 4 * lines > block_length && records_length(at, end, lines, escapes) > block_length)
        return (uint64_t)STOMP_DECODE_SHORT_BLOCK << 16;
    return write_records(at, end, lines, escapes, block);
}

#else

/* What an octet is in names and in values, with escapes and, in CONNECT and CONNECTED, without. The first
 * colon ends the name; a value of a frame has raw colons only where they belong to it. */
enum { PLAIN, END, ESCAPE };
struct kinds {
    uint8_t name[256];
    uint8_t value[256];
};
static const struct kinds with_escapes = {
    .name = {[LF] = END, [CR] = END, [COLON] = END, [BACKSLASH] = ESCAPE},
    .value = {[LF] = END, [CR] = END, [BACKSLASH] = ESCAPE},
};
static const struct kinds without = {
    .name = {[LF] = END, [CR] = END, [COLON] = END},
    .value = {[LF] = END, [CR] = END},
};

/* Behind the line end that stands here. */
static inline const uint8_t *after_line_end(const uint8_t *at)
{
    return at + (*at == CR ? 2 : 1);
}

/* The length of the records of so many lines. The lines are those of a frame, so they end. A line is passed
 * as a whole: by the kinds of values no colon ends it. */
static size_t records_length(const uint8_t *at, size_t lines, const uint8_t *kinds)
{
    size_t total = 0;
    for (; lines > 0; lines--) {
        const uint8_t *start = at;
        size_t escapes = 0;
        for (; kinds[*at] != END; at++) {
            if (kinds[*at] == ESCAPE) {
                escapes++;
                at++;
            }
        }
        /* All of the line but its first colon. */
        total += HEAD + (size_t)(at - start) - escapes - 1;
        at = after_line_end(at);
    }
    return total;
}

/* Writes the name or value that begins here. */
static inline const uint8_t *write_text(const uint8_t *at, const uint8_t *kinds, uint8_t **end)
{
    uint8_t *to = *end;
    for (;; at++) {
        unsigned kind = kinds[*at];
        if (kind == PLAIN)
            *to++ = *at;
        else if (kind == ESCAPE)
            *to++ = meanings[*++at];
        else
            break;
    }
    *end = to;
    return at;
}

/* Writes the records of so many lines. */
static void write_records(const uint8_t *at, size_t lines, const struct kinds *kinds, uint8_t *to)
{
    for (; lines > 0; lines--) {
        uint8_t *head = to;
        to += HEAD;
        at = write_text(at, kinds->name, &to);
        uint8_t *value = to;
        at = write_text(at + 1, kinds->value, &to);
        at = after_line_end(at);
        put_head(head, (size_t)(value - head - HEAD), (size_t)(to - value));
    }
}

uint64_t baseline_decode(const uint8_t *frame, size_t length, uint8_t *block, size_t block_length)
{
    uint64_t answer = baseline_parse(frame, length);
    if (stomp_parse_kind(answer) != STOMP_FRAME || stomp_parse_used(answer) != length)
        return (uint64_t)STOMP_DECODE_NOT_A_FRAME << 16;
    const struct kinds *kinds = has_escapes(stomp_parse_command(answer)) ? &with_escapes : &without;
    size_t lines = stomp_parse_headers(answer);
    const uint8_t *at = frame;
    while (*at != LF)
        at++;
    at++;
    size_t needed = records_length(at, lines, kinds->value);
    if (needed > block_length)
        return (uint64_t)STOMP_DECODE_SHORT_BLOCK << 16;
    write_records(at, lines, kinds, block);
    return needed;
}

#endif
