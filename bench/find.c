/* Looking a name up in a header block by hand, and counting its later entries: one pass over all records
 * each, since the whole block must be well formed. */
#include <stdbool.h>

#include "baseline.h"

enum { RECORD_HEAD = 6, MALFORMED = 1 };

static const uint64_t later_malformed = ((uint64_t)1 << 63) + 22;

static size_t two(const uint8_t *octets)
{
    return (size_t)octets[0] << 8 | octets[1];
}

static bool same(const uint8_t *a, const uint8_t *b, size_t length)
{
    for (size_t i = 0; i < length; i++)
        if (a[i] != b[i])
            return false;
    return true;
}

uint64_t baseline_find(const uint8_t *block, size_t block_length, const uint8_t *name, size_t name_length)
{
    uint64_t found = 0;
    for (size_t at = 0; at < block_length;) {
        if (block_length - at < RECORD_HEAD || block[at] != 72 || block[at + 1] != 68)
            return MALFORMED;
        size_t names = two(block + at + 2), values = two(block + at + 4);
        if (block_length - at - RECORD_HEAD < names + values)
            return MALFORMED;
        if (!found && names == name_length && same(block + at + RECORD_HEAD, name, names))
            found = at + RECORD_HEAD + names;
        at += RECORD_HEAD + names + values;
    }
    return found;
}

uint64_t baseline_later(const uint8_t *block, size_t block_length, const uint8_t *name, size_t name_length)
{
    uint64_t count = 0;
    for (size_t at = 0; at < block_length;) {
        if (block_length - at < RECORD_HEAD || block[at] != 72 || block[at + 1] != 68)
            return later_malformed;
        size_t names = two(block + at + 2), values = two(block + at + 4);
        if (block_length - at - RECORD_HEAD < names + values)
            return later_malformed;
        count += names == name_length && same(block + at + RECORD_HEAD, name, names);
        at += RECORD_HEAD + names + values;
    }
    return count > 0 ? count - 1 : 0;
}
