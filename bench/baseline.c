/* Parsing by hand, octet by octet. */
#include "baseline.h"

#include <string.h>

#include "rules.h"

#define NO_LENGTH SIZE_MAX

/* The input, how far it is read, and what has been found so far. */
struct scan {
    const uint8_t *octets;
    size_t length;
    size_t at;
    unsigned command;
    unsigned headers;
    const uint8_t *name_kinds;
    const uint8_t *value_kinds;
    size_t max_body;
    size_t content_length;
    uint64_t answer;
};

typedef size_t zero_finder(const uint8_t *octets, size_t length);

const char command_words[COMMANDS + 1][12] = {
    "", "ABORT", "ACK", "BEGIN", "COMMIT", "CONNECT", "CONNECTED", "DISCONNECT", "ERROR", "MESSAGE",
    "NACK", "RECEIPT", "SEND", "STOMP", "SUBSCRIBE", "UNSUBSCRIBE"
};

/* How many octets a word shares with the one before it. */
static const uint8_t shared[COMMANDS + 2] = {0, 0, 1, 0, 0, 2, 7, 0, 0, 0, 0, 0, 0, 1, 1, 0, 0};

/* The first command with this letter, or 0. */
static const uint8_t first_with[26] = {
    ['A' - 'A'] = 1, ['B' - 'A'] = 3,  ['C' - 'A'] = 4,  ['D' - 'A'] = 7,  ['E' - 'A'] = 8,
    ['M' - 'A'] = 9, ['N' - 'A'] = 10, ['R' - 'A'] = 11, ['S' - 'A'] = 12, ['U' - 'A'] = 15
};

/* What an octet is in header text: with escapes, without, and where colons are plain too. From 128 on it is
 * the first octet of a character, or one that begins none. */
enum { PLAIN, END, ESCAPE, WIDE, BROKEN };
#define BEYOND [0x80 ... 0xc1] = BROKEN, [0xc2 ... 0xf4] = WIDE, [0xf5 ... 0xff] = BROKEN
static const uint8_t kinds_with_escapes[256] = {
    [LF] = END, [CR] = END, [COLON] = END, [BACKSLASH] = ESCAPE, BEYOND
};
static const uint8_t kinds_without[256] = {[LF] = END, [CR] = END, [COLON] = END, BEYOND};
static const uint8_t kinds_with_colons[256] = {[LF] = END, [CR] = END, BEYOND};

/* The octets that may follow a backslash. */
static const uint8_t letters[256] = {['c'] = 1, ['n'] = 1, ['r'] = 1, [BACKSLASH] = 1};

/* Ends the scan with an answer. */
static inline bool stop(struct scan *s, uint64_t answer)
{
    s->answer = answer;
    return false;
}

static inline bool invalid(struct scan *s, uint64_t code, size_t offset)
{
    return stop(s, 3 + 4 * (code + ((uint64_t)offset << 8)));
}

/* Reads a line end, which begins here. */
static inline bool read_line_end(struct scan *s)
{
    if (s->octets[s->at] == CR) {
        s->at++;
        if (s->at == s->length)
            return stop(s, STOMP_INCOMPLETE);
        if (s->octets[s->at] != LF)
            return invalid(s, STOMP_INVALID_LINE_END, s->at);
    }
    s->at++;
    return true;
}

/* Reads the command, up to its line end. */
static inline bool read_command(struct scan *s)
{
    unsigned letter = (unsigned)s->octets[0] - 'A';
    unsigned c = letter < 26 ? first_with[letter] : 0;
    if (c == 0)
        return invalid(s, STOMP_INVALID_COMMAND, 0);
    for (size_t i = 1; i < s->length; i++) {
        uint8_t x = s->octets[i];
        if (command_words[c][i] == 0 && (x == LF || x == CR)) {
            s->at = i;
            s->command = c;
            s->name_kinds = has_escapes(c) ? kinds_with_escapes : kinds_without;
            s->value_kinds = has_colons(c) ? kinds_with_colons : s->name_kinds;
            s->max_body = most_body(c);
            return true;
        }
        /* Go to the next word that begins with what was read. */
        while (command_words[c][i] != x || x == 0) {
            c++;
            if (shared[c] < i)
                return invalid(s, STOMP_INVALID_COMMAND, i);
        }
    }
    return stop(s, STOMP_INCOMPLETE);
}

/* Says what is wrong with the character of several octets that begins here, or that it is cut. It owes its
 * octets from the first one on. */
static bool cut_character(struct scan *s, size_t i, size_t limit)
{
    uint8_t first = s->octets[i];
    size_t last = i + octets_after(first);
    if (last >= limit)
        return invalid(s, STOMP_INVALID_LINE_LENGTH, i);
    i++;
    if (i < s->length && !is_second(first, s->octets[i]))
        return invalid(s, STOMP_INVALID_UTF8, i);
    while (i < s->length && is_tail(s->octets[i]))
        i++;
    return i < s->length ? invalid(s, STOMP_INVALID_UTF8, i) : stop(s, STOMP_INCOMPLETE);
}

/* Reads the characters of several octets that stand here one after another: where they end, or 0. Apart from
 * its caller, so that text without them does not hang on it. */
__attribute__((noinline)) static size_t read_characters(struct scan *s, size_t i, size_t limit)
{
    const uint8_t *octets = s->octets;
    size_t end = s->length < limit ? s->length : limit;
    do {
        size_t length = character_at(octets + i, end - i);
        if (length == 0) {
            cut_character(s, i, limit);
            return 0;
        }
        i += length;
    } while (i < end && octets_after(octets[i]) > 0);
    return i;
}

/* Reads header text up to an octet that ends it, a line end or, as the kinds say, a raw colon. At `limit`
 * only those can stand. */
static inline bool read_text(struct scan *s, const uint8_t *kinds, size_t limit)
{
    const uint8_t *octets = s->octets;
    size_t end = s->length < limit ? s->length : limit;
    size_t i = s->at;
    while (i < end) {
        unsigned kind = kinds[octets[i]];
        if (kind == PLAIN) {
            i++;
        } else if (kind == END) {
            s->at = i;
            return true;
        } else if (kind == WIDE) {
            i = read_characters(s, i, limit);
            if (i == 0)
                return false;
        } else if (kind == BROKEN) {
            return invalid(s, STOMP_INVALID_UTF8, i);
        } else {
            /* A backslash, which owes one more octet. */
            i++;
            if (i == limit)
                return invalid(s, STOMP_INVALID_LINE_LENGTH, i - 1);
            if (i == s->length)
                return stop(s, STOMP_INCOMPLETE);
            if (!letters[octets[i]])
                return invalid(s, kinds[octets[i]] == BROKEN ? STOMP_INVALID_UTF8 : STOMP_INVALID_ESCAPE, i);
            i++;
        }
    }
    if (i == s->length)
        return stop(s, STOMP_INCOMPLETE);
    if (kinds[octets[i]] == BROKEN)
        return invalid(s, STOMP_INVALID_UTF8, i);
    if (kinds[octets[i]] != END)
        return invalid(s, STOMP_INVALID_LINE_LENGTH, i);
    s->at = i;
    return true;
}

/* Reads the value of the first content-length, up to its line end. */
static inline bool read_content_length(struct scan *s, size_t limit)
{
    size_t value = 0;
    for (size_t i = s->at; i < s->length; i++) {
        uint8_t x = s->octets[i];
        if (x == COLON && !has_colons(s->command))
            return invalid(s, STOMP_INVALID_SECOND_COLON, i);
        if (x == LF || x == CR) {
            if (i == s->at)
                return invalid(s, STOMP_INVALID_CONTENT_LENGTH, i);
            s->at = i;
            s->content_length = value;
            return true;
        }
        if (s->value_kinds[x] == BROKEN)
            return invalid(s, STOMP_INVALID_UTF8, i);
        if (i + octets_after(x) >= limit || (i + 1 == limit && s->value_kinds[x] == ESCAPE))
            return invalid(s, STOMP_INVALID_LINE_LENGTH, i);
        if (x < '0' || x > '9')
            return invalid(s, STOMP_INVALID_CONTENT_LENGTH, i);
        value = 10 * value + (x - '0');
        if (value > s->max_body)
            return invalid(s, STOMP_INVALID_CONTENT_LENGTH, i);
    }
    return stop(s, STOMP_INCOMPLETE);
}

/* Reads one header line, which begins here, with its line end. */
static inline bool read_header(struct scan *s)
{
    size_t start = s->at;
    /* The colon may be the last octet of the line. */
    if (!read_text(s, s->name_kinds, start + STOMP_MAX_LINE - 1))
        return false;
    size_t colon = s->at;
    if (s->octets[colon] != COLON)
        return invalid(s, STOMP_INVALID_NO_COLON, colon);
    s->at++;
    if (s->content_length == NO_LENGTH && colon - start == CONTENT_LENGTH_OCTETS &&
        memcmp(s->octets + start, CONTENT_LENGTH, CONTENT_LENGTH_OCTETS) == 0) {
        if (!read_content_length(s, start + STOMP_MAX_LINE))
            return false;
    } else {
        if (!read_text(s, s->value_kinds, start + STOMP_MAX_LINE))
            return false;
        if (s->octets[s->at] == COLON)
            return invalid(s, STOMP_INVALID_SECOND_COLON, s->at);
    }
    return read_line_end(s);
}

/* Reads the header lines and the empty line. */
static inline bool read_headers(struct scan *s)
{
    for (;;) {
        if (s->at == s->length)
            return stop(s, STOMP_INCOMPLETE);
        uint8_t x = s->octets[s->at];
        if (x == LF || x == CR)
            return read_line_end(s);
        if (x == COLON)
            return invalid(s, STOMP_INVALID_EMPTY_NAME, s->at);
        if (s->headers == STOMP_MAX_LINES)
            return invalid(s, s->name_kinds[x] == BROKEN ? STOMP_INVALID_UTF8 : STOMP_INVALID_LINE_COUNT, s->at);
        if (!read_header(s))
            return false;
        s->headers++;
    }
}

/* Reads the body and octet 0. */
static inline bool read_body(struct scan *s, zero_finder *find_zero)
{
    size_t body_length = s->content_length;
    if (body_length == NO_LENGTH) {
        size_t rest = s->length - s->at;
        body_length = find_zero(s->octets + s->at, rest < s->max_body ? rest : s->max_body);
    }
    size_t end = s->at + body_length;
    if (end >= s->length)
        return stop(s, STOMP_INCOMPLETE);
    if (s->octets[end] != 0)
        return invalid(s, STOMP_INVALID_BODY_END, end);
    uint64_t body = s->at | (uint64_t)body_length << 16;
    uint64_t frame = (end + 1) | (uint64_t)(s->command | s->headers << 4) << 16 | body << 26;
    return stop(s, 2 + 4 * frame);
}

static inline uint64_t parse(const uint8_t *octets, size_t length, zero_finder *find_zero)
{
    struct scan s = {.octets = octets, .length = length, .content_length = NO_LENGTH};
    if (length == 0)
        return STOMP_INCOMPLETE;
    if (octets[0] == LF || octets[0] == CR) {
        if (read_line_end(&s))
            s.answer = 1 + 4 * (uint64_t)s.at;
        return s.answer;
    }
    if (read_command(&s) && read_line_end(&s) && read_headers(&s))
        read_body(&s, find_zero);
    return s.answer;
}

/* How many octets stand before the first octet 0, or all of them. Apart from its caller, so that
 * the loop's place in memory, and with it its speed, does not hang on the code before it. */
__attribute__((noinline)) static size_t find_zero_plain(const uint8_t *octets, size_t length)
{
    size_t i = 0;
    while (i < length && octets[i] != 0)
        i++;
    return i;
}

static size_t find_zero_memchr(const uint8_t *octets, size_t length)
{
    const uint8_t *zero = memchr(octets, 0, length);
    return zero ? (size_t)(zero - octets) : length;
}

uint64_t baseline_parse(const uint8_t *octets, size_t length)
{
    return parse(octets, length, find_zero_plain);
}

uint64_t baseline_parse_memchr(const uint8_t *octets, size_t length)
{
    return parse(octets, length, find_zero_memchr);
}
