/* What the three parts of the baseline share: the octets with a meaning, the octets of a character, the
 * commands, and which of them have escapes, colons in values, or a body. */
#ifndef RULES_H
#define RULES_H

#include <stdbool.h>

#include "../include/stomp.h"

enum { LF = 10, CR = 13, COLON = 58, BACKSLASH = 92 };
enum { COMMANDS = 15, HEAD = 6 };

#define CONTENT_LENGTH "content-length"
enum { CONTENT_LENGTH_OCTETS = sizeof CONTENT_LENGTH - 1 };

/* In order, so that words with the same beginning stand together. */
extern const char command_words[COMMANDS + 1][12];

static inline bool has_escapes(unsigned command)
{
    return command != STOMP_COMMAND_CONNECT && command != STOMP_COMMAND_CONNECTED;
}

/* Whether the colons after the first of a line belong to the value. */
static inline bool has_colons(unsigned command)
{
    return command == STOMP_COMMAND_CONNECT || command == STOMP_COMMAND_CONNECTED;
}

/* How many octets follow the first of a UTF-8 character; 0 where it is a character by itself, or begins none. */
static inline size_t octets_after(uint8_t first)
{
    if (first < 0xc2 || first > 0xf4)
        return 0;
    return first < 0xe0 ? 1 : first < 0xf0 ? 2 : 3;
}

static inline bool is_tail(uint8_t x)
{
    return (x & 0xc0) == 0x80;
}

/* Whether the octet may be the second of a character: none is longer than it has to be, a surrogate, or
 * beyond U+10FFFF. */
static inline bool is_second(uint8_t first, uint8_t x)
{
    if (!is_tail(x))
        return false;
    switch (first) {
    case 0xe0:
        return x >= 0xa0;
    case 0xed:
        return x < 0xa0;
    case 0xf0:
        return x >= 0x90;
    case 0xf4:
        return x < 0x90;
    default:
        return true;
    }
}

/* How many octets the character of several has that begins here, if it is whole within the length; else 0. */
static inline size_t character_at(const uint8_t *x, size_t length)
{
    if (x[0] < 0xc2 || x[0] > 0xf4 || length < 2 || !is_second(x[0], x[1]))
        return 0;
    if (x[0] < 0xe0)
        return 2;
    if (length < 3 || !is_tail(x[2]))
        return 0;
    if (x[0] < 0xf0)
        return 3;
    return length < 4 || !is_tail(x[3]) ? 0 : 4;
}

/* The longest body of a command. */
static inline size_t most_body(unsigned command)
{
    return command == STOMP_COMMAND_SEND || command == STOMP_COMMAND_MESSAGE || command == STOMP_COMMAND_ERROR
               ? STOMP_MAX_BODY
               : 0;
}

#endif
