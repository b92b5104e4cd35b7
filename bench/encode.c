/* Encoding by hand: a frame's octets from a command, a header block and a body. Built in two variants: texts
 * octet by octet, and by memcpy where none of their octets is escaped. */
#include "baseline.h"

#include <string.h>

#include "rules.h"

#ifdef WITH_MEMCPY
#define baseline_encode_with baseline_encode_memcpy
#endif

/* The letter that stands for an octet behind a backslash, or 0. */
static const uint8_t letters[256] = {[LF] = 'n', [CR] = 'r', [COLON] = 'c', [BACKSLASH] = BACKSLASH};

/* What a well-formed block holds: how many entries, and where the value of the first content-length
 * starts and how long it is. It never starts at 0, so 0 says that there is none. */
struct entries {
    size_t count;
    size_t content_length;
    size_t content_length_octets;
};

static inline uint64_t refused(uint64_t code, size_t index)
{
    return code << 16 | index;
}

static inline size_t number_at(const uint8_t *octets)
{
    return (size_t)octets[0] << 8 | octets[1];
}

/* Passes all records of the block; false where it is malformed. */
static bool read_block(const uint8_t *block, size_t length, struct entries *e)
{
    for (size_t at = 0; at < length;) {
        if (length - at < HEAD || block[at] != 72 || block[at + 1] != 68)
            return false;
        size_t name = number_at(block + at + 2);
        size_t value = number_at(block + at + 4);
        at += HEAD;
        if (length - at < name + value)
            return false;
        if (e->content_length == 0 && name == CONTENT_LENGTH_OCTETS &&
            memcmp(block + at, CONTENT_LENGTH, CONTENT_LENGTH_OCTETS) == 0) {
            e->content_length = at + name;
            e->content_length_octets = value;
        }
        at += name + value;
        e->count++;
    }
    return true;
}

/* How many octets of a text are escaped, and all octets ORed. */
static inline size_t escapes_in(const uint8_t *text, size_t length, uint8_t *all)
{
    size_t special = 0;
    for (size_t i = 0; i < length; i++) {
        special += letters[text[i]] != 0;
        *all |= text[i];
    }
    return special;
}

static bool is_utf8(const uint8_t *text, size_t length)
{
    for (size_t i = 0; i < length;) {
        size_t octets = text[i] < 0x80 ? 1 : character_at(text + i, length - i);
        if (octets == 0)
            return false;
        i += octets;
    }
    return true;
}

/* The length of the raw line of an entry, or 0 where it cannot be written. */
static inline size_t line_length(const uint8_t *text, size_t name, size_t value, bool escapes)
{
    size_t length = name + 1 + value;
    if (name == 0 || length > STOMP_MAX_LINE)
        return 0;
    size_t special = 0;
    uint8_t all = 0;
    if (escapes) {
        special = escapes_in(text, name + value, &all);
        length += special;
        if (length > STOMP_MAX_LINE)
            return 0;
    } else {
        for (size_t i = 0; i < name + value; i++) {
            special += (text[i] == LF) | (text[i] == CR) | ((text[i] == COLON) & (i < name));
            all |= text[i];
        }
        if (special > 0)
            return 0;
    }
    if (all >= 0x80 && !(is_utf8(text, name) && is_utf8(text + name, value)))
        return 0;
    return length;
}

/* Whether these are digits of the number, which is small. */
static bool says(const uint8_t *digits, size_t length, size_t number)
{
    size_t n = 0;
    for (size_t i = 0; i < length; i++) {
        if (digits[i] < '0' || digits[i] > '9')
            return false;
        n = 10 * n + (digits[i] - '0');
        if (n > number)
            return false;
    }
    return length > 0 && n == number;
}

static size_t decimal_length(size_t n)
{
    size_t length = 1;
    for (; n >= 10; n /= 10)
        length++;
    return length;
}

static uint8_t *put(uint8_t *to, const char *text, size_t length)
{
    memcpy(to, text, length);
    return to + length;
}

static inline uint8_t *put_text(uint8_t *to, const uint8_t *text, size_t length, bool escapes)
{
#ifdef WITH_MEMCPY
    if (!escapes) {
        memcpy(to, text, length);
        return to + length;
    }
#endif
    for (size_t i = 0; i < length; i++) {
        uint8_t x = text[i];
        if (escapes && letters[x]) {
            *to++ = BACKSLASH;
            x = letters[x];
        }
        *to++ = x;
    }
    return to;
}

static uint8_t *put_decimal(uint8_t *to, size_t n)
{
    size_t length = decimal_length(n);
    for (size_t i = length; i > 0; i--) {
        to[i - 1] = (uint8_t)('0' + n % 10);
        n /= 10;
    }
    return to + length;
}

/* Whether a line with the body's length is added. */
static bool adds_length(uint32_t options, const struct entries *e, const uint8_t *body, size_t body_length)
{
    if (body_length == 0 || e->content_length > 0)
        return false;
    return (options & STOMP_COUNTED) || memchr(body, 0, body_length);
}

uint64_t baseline_encode_with(uint32_t options, uint32_t command, const uint8_t *block, size_t block_length,
                              const uint8_t *body, size_t body_length, uint8_t *target, size_t target_length)
{
    struct entries e = {0, 0, 0};
    if (command < 1 || command > COMMANDS)
        return refused(STOMP_ENCODE_COMMAND, 0);
    if (!read_block(block, block_length, &e))
        return refused(STOMP_ENCODE_MALFORMED, 0);
    bool added = adds_length(options, &e, body, body_length);
    if (e.count + added > STOMP_MAX_LINES)
        return refused(STOMP_ENCODE_LINE_COUNT, 0);
    bool escapes = has_escapes(command);
    size_t word = strlen(command_words[command]);
    /* The word, the empty line and octet 0. */
    size_t needed = word + 3;
    /* The entries that are written octet by octet with escapes. */
    bool some[STOMP_MAX_LINES];
    const uint8_t *at = block;
    for (size_t i = 0; i < e.count; i++) {
        size_t name = number_at(at + 2);
        size_t value = number_at(at + 4);
        size_t line = line_length(at + HEAD, name, value, escapes);
        if (line == 0)
            return refused(STOMP_ENCODE_ENTRY, i);
#ifdef WITH_MEMCPY
        some[i] = line > name + 1 + value;
#else
        some[i] = escapes;
#endif
        needed += line + 1;
        at += HEAD + name + value;
    }
    if (body_length > most_body(command))
        return refused(STOMP_ENCODE_BODY, 0);
    if (e.content_length > 0 && !says(block + e.content_length, e.content_length_octets, body_length))
        return refused(STOMP_ENCODE_CONTENT_LENGTH, 0);
    if (added)
        needed += CONTENT_LENGTH_OCTETS + 1 + decimal_length(body_length) + 1;
    needed += body_length;
    if (needed > target_length)
        return refused(STOMP_ENCODE_SHORT_TARGET, 0);

    uint8_t *to = put(target, command_words[command], word);
    *to++ = LF;
    at = block;
    for (size_t i = 0; i < e.count; i++) {
        size_t name = number_at(at + 2);
        size_t value = number_at(at + 4);
        to = put_text(to, at + HEAD, name, some[i]);
        *to++ = COLON;
        to = put_text(to, at + HEAD + name, value, some[i]);
        *to++ = LF;
        at += HEAD + name + value;
    }
    if (added) {
        to = put(to, CONTENT_LENGTH ":", CONTENT_LENGTH_OCTETS + 1);
        to = put_decimal(to, body_length);
        *to++ = LF;
    }
    *to++ = LF;
    if (body_length > 0)
        memcpy(to, body, body_length);
    to[body_length] = 0;
    return needed;
}
