/* Matching a pattern by hand: the words of both are found once, then a row of answers is filled, from the
 * pattern's last word back. Entry j says whether the words passed match those of the name from word j on. */
#include <stdbool.h>

#include "../include/stomp.h"
#include "baseline.h"

struct word {
    const uint8_t *octets;
    size_t length;
};

/* The words, and how many; 0 where the text is malformed. */
static size_t find_words(const uint8_t *text, size_t length, struct word words[STOMP_MATCH_MAX_WORDS])
{
    size_t count = 0;
    if (length > STOMP_MATCH_MAX_OCTETS)
        return 0;
    for (size_t at = 0; at <= length;) {
        size_t end = at;
        while (end < length && text[end] != '.')
            end++;
        if (end == at || count == STOMP_MATCH_MAX_WORDS)
            return 0;
        words[count++] = (struct word){text + at, end - at};
        at = end + 1;
    }
    return count;
}

static bool is_octet(const struct word *w, uint8_t octet)
{
    return w->length == 1 && w->octets[0] == octet;
}

static bool same(const struct word *a, const struct word *b)
{
    if (a->length != b->length)
        return false;
    for (size_t i = 0; i < a->length; i++)
        if (a->octets[i] != b->octets[i])
            return false;
    return true;
}

uint64_t baseline_match(const uint8_t *name, size_t name_length, const uint8_t *pattern, size_t pattern_length)
{
    struct word words[STOMP_MATCH_MAX_WORDS], parts[STOMP_MATCH_MAX_WORDS];
    bool row[STOMP_MATCH_MAX_WORDS + 1] = {false};
    size_t n = find_words(name, name_length, words);
    if (n == 0)
        return (uint64_t)STOMP_MATCH_NAME << 16;
    size_t m = find_words(pattern, pattern_length, parts);
    if (m == 0)
        return (uint64_t)STOMP_MATCH_PATTERN << 16;
    row[n] = true;
    while (m-- > 0) {
        const struct word *part = &parts[m];
        if (is_octet(part, '#')) {
            for (size_t j = n; j-- > 0;)
                row[j] = row[j] || row[j + 1];
            continue;
        }
        bool any = is_octet(part, '*');
        for (size_t j = 0; j < n; j++)
            row[j] = row[j + 1] && (any || same(part, &words[j]));
        row[n] = false;
    }
    return row[0] ? STOMP_MATCH : STOMP_NO_MATCH;
}
