/* Version 1.1 by the baseline, which knows 1.2 alone. In 1.1 octet 13 is an octet as 1 is: it begins no line end,
 * belongs to header text, and is no escape's octet; and a backslash and the letter r are no escape, as a backslash
 * and t are none in 1.2. So what 1.1 says of octets is what 1.2 says of them with 1 in the place of each 13 and,
 * for parsing, t in the place of each r after a backslash. What is written has the octets 13 put back: those of
 * the names and values in order. */
#include "version.h"

#include <stdlib.h>
#include <string.h>

#include "../../bench/baseline.h"
#include "../../include/stomp.h"

enum { CR = 13, PLAIN = 1, HEAD = 6 };

static bool is_plain(uint8_t x)
{
    return x == CR || x == PLAIN;
}

/* A copy on the heap, as long. */
static uint8_t *copy_of(const uint8_t *octets, size_t length)
{
    uint8_t *copy = malloc(length ? length : 1);
    if (!copy)
        exit(2);
    memcpy(copy, octets, length);
    return copy;
}

static void hide(uint8_t *octets, size_t length)
{
    for (size_t i = 0; i < length; i++)
        if (octets[i] == CR)
            octets[i] = PLAIN;
}

/* Text whose octets 1 and 13 are put back into another, where that has 1, in order. */
struct source {
    const uint8_t *at;
    const uint8_t *end;
};

static void put_back(uint8_t *octets, size_t length, struct source *from)
{
    for (size_t i = 0; i < length; i++) {
        if (octets[i] != PLAIN)
            continue;
        while (from->at < from->end && !is_plain(*from->at))
            from->at++;
        if (from->at == from->end)
            abort();
        octets[i] = *from->at++;
    }
}

static size_t number_at(const uint8_t *octets)
{
    return (size_t)octets[0] << 8 | octets[1];
}

uint64_t version_parse(uint32_t options, const uint8_t *octets, size_t length)
{
    if (!(options & STOMP_1_1))
        return baseline_parse(octets, length);
    uint8_t *hidden = copy_of(octets, length);
    hide(hidden, length);
    for (size_t i = 1; i < length; i++)
        if (hidden[i - 1] == '\\' && hidden[i] == 'r')
            hidden[i] = 't';
    uint64_t answer = baseline_parse(hidden, length);
    free(hidden);
    return answer;
}

/* A frame of 1.1 has no escape of 13, so the baseline decodes none. */
uint64_t version_decode(uint32_t options, const uint8_t *frame, size_t length, uint8_t *block, size_t block_length)
{
    if (!(options & STOMP_1_1))
        return baseline_decode(frame, length, block, block_length);
    uint64_t parsed = version_parse(options, frame, length);
    if (stomp_parse_kind(parsed) != STOMP_FRAME || stomp_parse_used(parsed) != length)
        return (uint64_t)STOMP_DECODE_NOT_A_FRAME << 16;
    uint8_t *hidden = copy_of(frame, length);
    hide(hidden, length);
    uint64_t answer = baseline_decode(hidden, length, block, block_length);
    struct source from = {frame, frame + stomp_parse_body(parsed)};
    for (size_t at = 0; at < stomp_length(answer);) {
        size_t text = number_at(block + at + 2) + number_at(block + at + 4);
        put_back(block + at + HEAD, text, &from);
        at += HEAD + text;
    }
    free(hidden);
    return answer;
}

/* The names and values of a block, one after another, as far as its records are whole. In the copy of the block
 * their octets 13 are hidden. */
static size_t texts_of(const uint8_t *block, size_t length, uint8_t *texts, uint8_t *hidden)
{
    size_t used = 0;
    for (size_t at = 0; length - at >= HEAD;) {
        size_t text = number_at(block + at + 2) + number_at(block + at + 4);
        at += HEAD;
        if (length - at < text)
            break;
        memcpy(texts + used, block + at, text);
        hide(hidden + at, text);
        used += text;
        at += text;
    }
    return used;
}

uint64_t version_encode(uint32_t options, uint32_t command, const uint8_t *block, size_t block_length,
                        const uint8_t *body, size_t body_length, uint8_t *target, size_t target_length)
{
    if (!(options & STOMP_1_1))
        return baseline_encode_with(options, command, block, block_length, body, body_length, target, target_length);
    uint8_t *hidden = copy_of(block, block_length);
    uint8_t *texts = copy_of(block, block_length);
    struct source from = {texts, texts + texts_of(block, block_length, texts, hidden)};
    uint64_t answer = baseline_encode_with(options, command, hidden, block_length, body, body_length, target,
                                           target_length);
    if (!stomp_refused(answer))
        put_back(target, stomp_length(answer) - body_length - 1, &from);
    free(hidden);
    free(texts);
    return answer;
}
