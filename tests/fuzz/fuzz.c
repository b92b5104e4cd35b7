/* One input is one call, or a row of them. Its first octet says which (lowest two bits), on which side of
 * our slices the page lies that cannot be touched (third bit), and what the buffers hold before (all of it).
 * The rest is cut into the arguments, numbers high octet first:
 *
 *   0 parse    [options 4], octets; with the fourth bit they are fed in pieces, see feed.c
 *   1 decode   [options 4], room 2, frame; with the fourth bit match: pattern length 2, pattern, name; with
 *              the fifth bit too a plan, and with the sixth as records, see plan.c
 *   2 encode   options 4, command 4, room 2, body length 2, body, block
 *   3 find     name length 2, name, block; then how many later entries follow, of the same; with the fifth
 *              bit calls of a registry, see registry.c
 *
 * With the seventh bit parse and decode have options, and are called with them. A number that is missing is 0,
 * and a slice is not longer than what is left. With the fourth bit the block is not there as it is, but as a
 * text of which whole records are made: octet 255 ends an entry, 254 the name in it. So most changes of an
 * input leave its block well-formed. */
#define _DEFAULT_SOURCE

#include <stdio.h>
#include <stdlib.h>
#include <string.h>
#include <sys/mman.h>
#include <unistd.h>

#include "../../bench/baseline.h"
#include "../../include/stomp.h"
#include "fuzz.h"
#include "version.h"

enum { PARSE, DECODE, ENCODE, FIND, MATCH, LATER };
enum { PAGE_BEHIND = 4, AS_TEXT = 8, IN_PIECES = 8, MATCHED = 8, PLANNED = 16, AS_RECORDS = 32 };
enum { REGISTERED = 16, WITH_OPTIONS = 64 };
enum { HEAD = 6 };
enum { NAME_END = 254, ENTRY_END = 255 };

struct call {
    unsigned which;
    bool with_options;
    uint32_t options;
    uint32_t command;
    const uint8_t *read[BUFFER];
    size_t length[SLICES];
};

/* Our slices lie in rooms of their own, each between two pages that cannot be touched: at its end or
 * at its start. On the other side are GUARD octets, which must stay as they are. */
static uint8_t *rooms[ROOMS];

/* What guards and buffers hold before a call: these octets from some place on. */
static uint8_t fill[256 + GUARD + ROOM];
const uint8_t *filled;
static bool at_end;

static void fail(const char *what, const struct call *c, uint64_t ours, uint64_t other)
{
    static const char *const names[] = {"parse", "decode", "encode", "find", "match", "later"};
    fprintf(stderr, "fuzz: %s: %s: ours %#llx, the other %#llx; options %lu, command %lu, lengths %zu %zu, room %zu\n",
            names[c->which], what, (unsigned long long)ours, (unsigned long long)other,
            (unsigned long)c->options, (unsigned long)c->command, c->length[FIRST], c->length[SECOND],
            c->length[BUFFER]);
    abort();
}

int LLVMFuzzerInitialize(int *argc, char ***argv)
{
    size_t page = (size_t)sysconf(_SC_PAGESIZE);
    (void)argc;
    (void)argv;
    for (size_t i = 0; i < sizeof fill; i++)
        fill[i] = (uint8_t)(i * 167 + (i >> 8) * 59);
    for (size_t i = 0; i < ROOMS; i++) {
        uint8_t *start = mmap(NULL, ROOM + 2 * page, PROT_NONE, MAP_PRIVATE | MAP_ANONYMOUS, -1, 0);
        if (start == MAP_FAILED || mprotect(start + page, ROOM, PROT_READ | PROT_WRITE) != 0) {
            fprintf(stderr, "fuzz: no memory\n");
            exit(2);
        }
        rooms[i] = start + page;
    }
    return 0;
}

uint8_t *our_slice(size_t i, size_t length)
{
    return at_end ? rooms[i] + ROOM - length : rooms[i];
}

uint8_t *our_guard(size_t i, size_t length)
{
    return at_end ? rooms[i] + ROOM - length - GUARD : rooms[i] + length;
}

static uint64_t call_ours(const struct call *c)
{
    uint8_t *s[SLICES];
    uint64_t answer = 0;
    for (size_t i = 0; i < SLICES; i++) {
        s[i] = our_slice(i, c->length[i]);
        memcpy(s[i], i == BUFFER ? filled + GUARD : c->read[i], c->length[i]);
        memcpy(our_guard(i, c->length[i]), filled, GUARD);
    }
    switch (c->which) {
    case PARSE:
        if (c->with_options)
            answer = stomp_parse_with(c->options, s[FIRST], c->length[FIRST]);
        else
            answer = stomp_parse(s[FIRST], c->length[FIRST]);
        break;
    case DECODE:
        if (c->with_options)
            answer = stomp_decode_with(c->options, s[FIRST], c->length[FIRST], s[BUFFER], c->length[BUFFER]);
        else
            answer = stomp_decode(s[FIRST], c->length[FIRST], s[BUFFER], c->length[BUFFER]);
        break;
    case ENCODE:
        if (!c->with_options)
            answer = stomp_encode(c->command, s[FIRST], c->length[FIRST], s[SECOND], c->length[SECOND],
                                  s[BUFFER], c->length[BUFFER]);
        else
            answer = stomp_encode_with(c->options, c->command, s[FIRST], c->length[FIRST], s[SECOND],
                                       c->length[SECOND], s[BUFFER], c->length[BUFFER]);
        break;
    case FIND:
        answer = stomp_find(s[FIRST], c->length[FIRST], s[SECOND], c->length[SECOND]);
        break;
    case MATCH:
        answer = stomp_match(s[FIRST], c->length[FIRST], s[SECOND], c->length[SECOND]);
        break;
    case LATER:
        answer = stomp_later(s[FIRST], c->length[FIRST], s[SECOND], c->length[SECOND]);
        break;
    }
    for (size_t i = 0; i < SLICES; i++) {
        if (memcmp(our_guard(i, c->length[i]), filled, GUARD) != 0)
            fail("an octet beside a slice is changed", c, answer, i);
        if (i != BUFFER && memcmp(s[i], c->read[i], c->length[i]) != 0)
            fail("a slice that is only read is changed", c, answer, i);
    }
    return answer;
}

/* A copy on the heap, exactly as long: the sanitizer sees each octet read or written beside it. One
 * of no octets is the end of another, since malloc(0) may give an octet. */
struct copy {
    uint8_t *memory;
    uint8_t *octets;
};

static struct copy copied(const uint8_t *octets, size_t length)
{
    struct copy c;
    c.memory = malloc(length ? length : 1);
    if (!c.memory)
        exit(2);
    c.octets = length ? c.memory : c.memory + 1;
    memcpy(c.octets, octets, length);
    return c;
}

/* The entries of a name in a block: whether it is a row of whole records, where the first value is, and
 * how many there are. */
struct named {
    bool whole;
    uint64_t start;
    uint64_t count;
};

static struct named plain_named(const uint8_t *block, size_t length, const uint8_t *name, size_t name_length)
{
    struct named found = {false, 0, 0};
    for (size_t at = 0; at < length;) {
        if (length - at < HEAD || block[at] != 'H' || block[at + 1] != 'D')
            return found;
        size_t of_name = (size_t)block[at + 2] << 8 | block[at + 3];
        size_t of_value = (size_t)block[at + 4] << 8 | block[at + 5];
        at += HEAD;
        if (length - at < of_name + of_value)
            return found;
        if (of_name == name_length && memcmp(block + at, name, name_length) == 0 && found.count++ == 0)
            found.start = at + of_name;
        at += of_name + of_value;
    }
    found.whole = true;
    return found;
}

static uint64_t plain_find(struct named found)
{
    return found.whole ? found.start : 1;
}

static uint64_t plain_later(struct named found)
{
    if (!found.whole)
        return ((uint64_t)1 << 63) + STOMP_FIND_MALFORMED;
    return found.count > 0 ? found.count - 1 : 0;
}

/* Makes the call on both sides, and ends the program where they differ. */
static uint64_t agreed(const struct call *c)
{
    uint64_t ours = call_ours(c);
    uint64_t other = 0;
    size_t room = c->length[BUFFER];
    const uint8_t *our_buffer = our_slice(BUFFER, room);
    struct copy first = copied(c->read[FIRST], c->length[FIRST]);
    struct copy second = copied(c->read[SECOND], c->length[SECOND]);
    struct copy buffer = copied(filled + GUARD, room);
    switch (c->which) {
    case PARSE:
        other = version_parse(c->options, first.octets, c->length[FIRST]);
        if (!(c->options & STOMP_1_1) && baseline_parse_memchr(first.octets, c->length[FIRST]) != other)
            fail("the two of the baseline differ", c, ours, other);
        break;
    case DECODE:
        other = version_decode(c->options, first.octets, c->length[FIRST], buffer.octets, room);
        break;
    case ENCODE:
        other = version_encode(c->options, c->command, first.octets, c->length[FIRST], second.octets,
                               c->length[SECOND], buffer.octets, room);
        break;
    case FIND:
        other = plain_find(plain_named(first.octets, c->length[FIRST], second.octets, c->length[SECOND]));
        break;
    case LATER:
        other = plain_later(plain_named(first.octets, c->length[FIRST], second.octets, c->length[SECOND]));
        break;
    case MATCH:
        other = baseline_match(first.octets, c->length[FIRST], second.octets, c->length[SECOND]);
        break;
    }
    if (ours != other)
        fail("the answers differ", c, ours, other);
    if (memcmp(our_buffer, buffer.octets, room) != 0)
        fail("the buffers differ", c, ours, other);
    if (c->which == DECODE || c->which == ENCODE) {
        size_t used = stomp_length(ours);
        if (used > room || memcmp(our_buffer + used, filled + GUARD + used, room - used) != 0)
            fail("more is written than the answer says", c, ours, other);
    }
    free(first.memory);
    free(second.memory);
    free(buffer.memory);
    return ours;
}

/* A call that writes and was accepted: once more with just enough room, and with an octet less. */
static void try_rooms(struct call c, uint64_t answer)
{
    unsigned code = c.which == DECODE ? STOMP_DECODE_SHORT_BLOCK : STOMP_ENCODE_SHORT_TARGET;
    uint64_t again;
    c.length[BUFFER] = stomp_length(answer);
    again = agreed(&c);
    if (again != answer)
        fail("less room changes the answer", &c, again, answer);
    if (c.length[BUFFER] == 0)
        return;
    c.length[BUFFER]--;
    again = agreed(&c);
    if (again != (uint64_t)code << 16)
        fail("too little room is not refused", &c, again, answer);
}

/* What is left of the input. */
struct rest {
    const uint8_t *octets;
    size_t length;
};

static uint32_t take_number(struct rest *r, size_t octets)
{
    uint32_t n = 0;
    for (; octets > 0 && r->length > 0; octets--) {
        n = n << 8 | *r->octets++;
        r->length--;
    }
    return n;
}

static void take_slice(struct rest *r, size_t length, struct call *c, size_t i)
{
    c->read[i] = r->octets;
    c->length[i] = length < r->length ? length : r->length;
    r->octets += c->length[i];
    r->length -= c->length[i];
}

static void put_number(uint8_t *to, size_t n)
{
    to[0] = (uint8_t)(n >> 8);
    to[1] = (uint8_t)n;
}

/* Makes records of the text that is the block so far, as many as there is room for. */
static void make_block(struct call *c)
{
    static uint8_t block[ROOM - GUARD];
    const uint8_t *at = c->read[FIRST];
    size_t left = c->length[FIRST];
    size_t used = 0;
    while (left > 0) {
        const uint8_t *end = memchr(at, ENTRY_END, left);
        size_t entry = end ? (size_t)(end - at) : left;
        const uint8_t *name_end = memchr(at, NAME_END, entry);
        size_t name = name_end ? (size_t)(name_end - at) : entry;
        size_t value = name_end ? entry - name - 1 : 0;
        if (name > 0xffff || value > 0xffff || HEAD + name + value > sizeof block - used)
            break;
        block[used] = 'H';
        block[used + 1] = 'D';
        put_number(block + used + 2, name);
        put_number(block + used + 4, value);
        memcpy(block + used + HEAD, at, name);
        memcpy(block + used + HEAD + name, at + entry - value, value);
        used += HEAD + name + value;
        at += end ? entry + 1 : entry;
        left -= end ? entry + 1 : entry;
    }
    c->read[FIRST] = block;
    c->length[FIRST] = used;
}

int LLVMFuzzerTestOneInput(const uint8_t *octets, size_t length)
{
    struct rest r = {octets, length};
    unsigned choice = take_number(&r, 1);
    struct call c = {.which = choice & 3, .read = {fill, fill}};
    if (length > ROOM - GUARD)
        return 0;
    at_end = (choice & PAGE_BEHIND) != 0;
    filled = fill + choice;
    if (c.which == PARSE && (choice & IN_PIECES)) {
        fuzz_feed(r.octets, r.length);
        return 0;
    }
    if (c.which == DECODE && (choice & MATCHED) && (choice & PLANNED)) {
        fuzz_plan(r.octets, r.length, (choice & AS_RECORDS) != 0);
        return 0;
    }
    if (c.which == FIND && (choice & REGISTERED)) {
        fuzz_registry(r.octets, r.length);
        return 0;
    }
    if (c.which == DECODE && (choice & MATCHED))
        c.which = MATCH;
    if (c.which == ENCODE || ((c.which == PARSE || c.which == DECODE) && (choice & WITH_OPTIONS)))
        c.options = take_number(&r, 4);
    c.with_options = c.which == ENCODE ? c.options != 0 : (choice & WITH_OPTIONS) != 0;
    if (c.which == ENCODE)
        c.command = take_number(&r, 4);
    if (c.which == DECODE || c.which == ENCODE)
        c.length[BUFFER] = take_number(&r, 2);
    if (c.which == ENCODE || c.which == FIND || c.which == MATCH)
        take_slice(&r, take_number(&r, 2), &c, SECOND);
    take_slice(&r, r.length, &c, FIRST);
    if ((c.which == ENCODE || c.which == FIND) && (choice & AS_TEXT))
        make_block(&c);
    uint64_t answer = agreed(&c);
    if (c.which == FIND) {
        c.which = LATER;
        agreed(&c);
    }
    if ((c.which == DECODE || c.which == ENCODE) && !stomp_refused(answer))
        try_rooms(c, answer);
    return 0;
}
