/* A row of octets put together piece by piece, and damaged. */
#include "row.h"

#include <string.h>

#include "streams.h"

enum { FIRST_OCTETS = 600 };

void put(struct row *r, const void *octets, size_t length)
{
    memcpy(r->octets + r->length, octets, length);
    r->length += length;
}

void put_times(struct row *r, const char *text, size_t times)
{
    for (; times > 0; times--)
        put(r, text, strlen(text));
}

void put_parts(struct row *r, const struct part *parts, size_t count)
{
    for (size_t p = 0; p < count; p++)
        for (size_t times = parts[p].times; times > 0; times--)
            put(r, parts[p].text, parts[p].length);
}

/* Where a long row is damaged: in its first octets, or anywhere. */
static size_t damage_place(const struct row *r, uint64_t *seed)
{
    size_t last = r->length - 1;
    if (last > FIRST_OCTETS && random_between(seed, 0, 1))
        last = FIRST_OCTETS;
    return random_between(seed, 0, last);
}

/* Moves what stands behind a place, so that octets come in there or go. */
static void shift(struct row *r, size_t from, size_t to)
{
    memmove(r->octets + to, r->octets + from, r->length - from);
    r->length = r->length - from + to;
}

void damage(struct row *r, uint64_t *seed)
{
    static const char octets[] = "\0\n\r:\\\\cnrt0019 aA\xff\x80\xc3\xe2";
    size_t at = damage_place(r, seed);
    uint8_t x = (uint8_t)octets[random_between(seed, 0, sizeof octets - 2)];
    size_t piece = random_between(seed, 1, r->length - at < 40 ? r->length - at : 40);
    switch (random_between(seed, 0, 6)) {
    case 0:
        r->octets[at] = x;
        break;
    case 1:
        r->octets[at] = (uint8_t)random_next(seed);
        break;
    case 2:
        shift(r, at, at + 1);
        r->octets[at] = x;
        break;
    case 3:
        shift(r, at + 1, at);
        break;
    case 4:
        shift(r, at + piece, at);
        break;
    case 5:
        shift(r, at, at + piece);
        break;
    default:
        while (at < r->length && r->octets[at] != '\n')
            at++;
        if (at < r->length) {
            shift(r, at, at + 1);
            r->octets[at] = '\r';
        }
    }
}
