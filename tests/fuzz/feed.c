/* The stream parser. An input is
 *
 *   mark 1, [state 16], count of lengths 1, lengths 1 each, [options 1 each], octets
 *
 * The mark's higher bits say how much longer than needed the buffer is; of the count the lowest four bits
 * are taken. The octets come in pieces of those lengths, in turn and again from the first; without a
 * length, or with none but 0, in one piece. What is left of a piece after an item is handed in again.
 * With the fifth bit of the count there are as many options as lengths: before each call that hands in octets
 * the version of one of them is told, in turn and again from the first. It is taken exactly where no octet of
 * the item under way is. What each call has to answer is known from one parse an item of all octets, in the
 * version of the item, and what it leaves in the buffer too. After a refusal, or at the end, come calls that must
 * change nothing: the refusal repeated, a version told, a short buffer (70), a count that no unfinished item has
 * (71).
 *
 * With an odd mark the state is there too: any octets. Then only what holds of every state is checked. */
#include <stdio.h>
#include <stdlib.h>
#include <string.h>

#include "../../bench/baseline.h"
#include "../../include/stomp.h"
#include "fuzz.h"
#include "version.h"

enum { STATE = STOMP_FEED_STATE, LEAST = STOMP_FEED_BUFFER };

/* The whole buffer is compared at an item only once in so many items; always at the end. */
enum { SELDOM = 64 };

/* The two octets of the state that are the count held, and a count that is too large. */
enum { COUNT = 10, TOO_LARGE = 49228 };

/* The octet of the state that is the version: 1 for 1.1. */
enum { VERSION = 12 };

/* In the octet before the lengths: their number, and whether versions are told. */
enum { LENGTHS = 15, TOLD = 16 };

/* The stream, the start of the item under way, what parsing answers to all octets from there on, how many
 * octets of the stream are taken, and the items before. */
static const uint8_t *stream;
static size_t stream_length, start, taken, items;
static uint64_t whole;

/* The options of the item under way, and those that are told: how many, and how many were. */
static uint32_t version;
static const uint8_t *tellings;
static size_t telling_count, told;

/* The buffer and the state, ours and as they have to be; the state is known where nothing may change. */
static uint8_t *buffer, *state;
static size_t room;
static uint8_t due_buffer[ROOM], due_state[STATE];

static void fail(const char *what, uint64_t answer, uint64_t due)
{
    fprintf(stderr,
            "fuzz: feed: %s: answer %#llx, due %#llx; item at %zu, taken %zu of %zu, parsed %#llx, options %lu, "
            "room %zu\n",
            what, (unsigned long long)answer, (unsigned long long)due, start, taken, stream_length,
            (unsigned long long)whole, (unsigned long)version, room);
    abort();
}

static void check_guards(size_t piece, uint64_t answer)
{
    if (memcmp(our_guard(FIRST, piece), filled, GUARD) != 0 || memcmp(our_guard(SECOND, STATE), filled, GUARD) != 0 ||
        memcmp(our_guard(BUFFER, room), filled, GUARD) != 0)
        fail("an octet beside a slice is changed", answer, 0);
}

/* One call, with a copy of the piece that lies against a page, and so much of the buffer. */
static uint64_t feed(const uint8_t *octets, size_t length, size_t given)
{
    uint8_t *piece = our_slice(FIRST, length);
    memcpy(piece, octets, length);
    memcpy(our_guard(FIRST, length), filled, GUARD);
    uint64_t answer = stomp_feed(state, STATE, buffer, given, piece, length);
    check_guards(length, answer);
    if (memcmp(piece, octets, length) != 0)
        fail("the piece is changed", answer, 0);
    return answer;
}

/* A call that must give this answer and change nothing. */
static void feed_in_vain(const uint8_t *octets, size_t length, size_t given, uint64_t due)
{
    memcpy(due_state, state, STATE);
    uint64_t answer = feed(octets, length, given);
    if (answer != due)
        fail("a call that takes nothing has another answer", answer, due);
    if (memcmp(state, due_state, STATE) != 0 || memcmp(buffer, due_buffer, room) != 0)
        fail("a call that takes nothing changes something", answer, due);
}

static uint64_t refusal(uint64_t number, uint64_t offset)
{
    return 3 + 4 * ((number + (offset << 8)) << 16);
}

/* Parses the item under way: with ours, and with the baseline. For 1.1 the baseline gets no more than what
 * settles the item, since each octet that it gets is copied. */
static void parse_whole(void)
{
    const uint8_t *octets = stream + start;
    size_t length = stream_length - start;
    whole = stomp_parse_with(version, octets, length);
    if (version == 0 && (stomp_parse(octets, length) != whole || baseline_parse(octets, length) != whole))
        fail("the baseline parses otherwise", 0, whole);
    if (stomp_parse_kind(whole) == STOMP_INVALID)
        length = stomp_parse_offset(whole) < length ? stomp_parse_offset(whole) + 1 : length;
    else if (stomp_parse_kind(whole) != STOMP_INCOMPLETE)
        length = stomp_parse_used(whole) < length ? stomp_parse_used(whole) : length;
    if (version != 0 && version_parse(version, octets, length) != whole)
        fail("the baseline parses otherwise", 0, whole);
}

/* A version told that must be taken, or not and change nothing. */
static void tell(uint32_t options, size_t length, bool due)
{
    memcpy(due_state, state, STATE);
    if (due)
        due_state[VERSION] = (options & STOMP_1_1) != 0;
    uint64_t answer = stomp_feed_tell(state, length, options);
    if (memcmp(our_guard(SECOND, STATE), filled, GUARD) != 0)
        fail("an octet beside a slice is changed", answer, due);
    if (answer != due)
        fail("a version told is taken, or not", answer, due);
    if (memcmp(state, due_state, STATE) != 0)
        fail("a version told leaves another state", answer, due);
}

/* The next of the versions that the input tells, if it does. */
static void tell_next(void)
{
    if (telling_count == 0)
        return;
    uint32_t options = tellings[told++ % telling_count] * (uint32_t)0x1010101;
    bool between = taken == start;
    tell(options, STATE, between);
    if (between && (options & STOMP_1_1) != version) {
        version = options & STOMP_1_1;
        parse_whole();
    }
}

/* How many octets from the item's start on are taken at most before it is settled, and how many settle it. */
static size_t settled_at(void)
{
    if (stomp_parse_kind(whole) == STOMP_INVALID)
        return stomp_parse_offset(whole);
    return stomp_parse_used(whole);
}

static bool settles(size_t reached)
{
    if (stomp_parse_kind(whole) == STOMP_INVALID)
        return reached > stomp_parse_offset(whole);
    return stomp_parse_kind(whole) != STOMP_INCOMPLETE && reached >= stomp_parse_used(whole);
}

/* What a call has to answer that takes so many octets and settles the item. */
static uint64_t settled_answer(size_t octets)
{
    switch (stomp_parse_kind(whole)) {
    case STOMP_HEART_BEAT:
        return 1 + 4 * (octets + ((uint64_t)stomp_parse_used(whole) << 16));
    case STOMP_FRAME:
        return (whole & ~((uint64_t)0xffff << 2)) | (uint64_t)octets << 2;
    default:
        return refusal(stomp_parse_code(whole), stomp_parse_offset(whole)) + 4 * octets;
    }
}

/* Hands in the next octets of the stream, so many, and what is left of them after each item. False where
 * they are refused. */
static bool hand_in(size_t length)
{
    size_t end = taken + length;
    for (;;) {
        tell_next();
        const uint8_t *octets = stream + taken;
        bool settled = settles(end - start);
        size_t due_taken = settled ? start + settled_at() - taken : end - taken;
        uint64_t due = settled ? settled_answer(due_taken) : 4 * (uint64_t)due_taken;
        uint64_t answer = feed(octets, end - taken, room);
        if (answer != due)
            fail("the answer is not that of the whole", answer, due);
        if (stomp_feed_taken(answer) != due_taken || stomp_feed_used(answer) != (settled ? stomp_parse_used(whole) : 0))
            fail("the readers differ", answer, due);
        memcpy(due_buffer + (taken - start), octets, due_taken);
        if (memcmp(buffer + (taken - start), octets, due_taken) != 0)
            fail("what is taken is not in the buffer", answer, due);
        taken += due_taken;
        if (!settled)
            return true;
        if (memcmp(buffer, due_buffer, taken - start) != 0)
            fail("the buffer's front is not the item's octets", answer, due);
        if (stomp_parse_kind(whole) == STOMP_INVALID)
            return false;
        if (++items % SELDOM == 0 && memcmp(buffer, due_buffer, room) != 0)
            fail("the rest of the buffer is changed", answer, due);
        start = taken;
        parse_whole();
    }
}

/* The stream in pieces of these lengths, in turn. False where it is refused. */
static bool in_pieces(const uint8_t *lengths, size_t count)
{
    size_t sum = 0;
    for (size_t i = 0; i < count; i++)
        sum += lengths[i];
    for (size_t i = 0; taken < stream_length; i++) {
        size_t left = stream_length - taken;
        size_t length = sum == 0 || lengths[i % count] > left ? left : lengths[i % count];
        if (!hand_in(length))
            return false;
    }
    return hand_in(0);
}

/* Calls that change nothing. */
static void in_vain(bool refused)
{
    const uint8_t *rest = stream + taken;
    size_t left = stream_length - taken;
    if (memcmp(buffer, due_buffer, room) != 0)
        fail("the rest of the buffer is changed", 0, 0);
    if (refused) {
        uint64_t again = refusal(stomp_parse_code(whole), stomp_parse_offset(whole));
        feed_in_vain(rest, left, room, again);
        feed_in_vain(rest, 0, room, again);
        feed_in_vain((const uint8_t *)"\n", 1, room, again);
        tell(STOMP_1_1 - version, STATE, false);
    }
    tell(STOMP_1_1 - version, STATE - 1, false);
    feed_in_vain(rest, left, LEAST - 1, refusal(STOMP_FEED_SHORT_BUFFER, 0));
    state[COUNT] = TOO_LARGE >> 8;
    state[COUNT + 1] = TOO_LARGE & 0xff;
    feed_in_vain(rest, left, room, refusal(STOMP_FEED_INVALID_STATE, 0));
    tell(STOMP_1_1 - version, STATE, false);
    feed_in_vain(rest, left, 0, refusal(STOMP_FEED_SHORT_BUFFER, 0));
}

/* Any state: a version told changes the octet of the version alone, and only before an item; the call ends, takes
 * no more than there is, and changes nothing where it refuses itself. */
static void with_any_state(void)
{
    uint32_t same = state[VERSION] == 1 ? STOMP_1_1 : 0;
    memcpy(due_state, state, STATE);
    uint64_t between = stomp_feed_tell(state, STATE, same);
    if (memcmp(state, due_state, STATE) != 0 || between > 1 || (between == 1 && state[0] != 0))
        fail("the version that it has, told, changes something", between, 0);
    tell(STOMP_1_1 - same, STATE, between == 1);
    memcpy(due_state, state, STATE);
    uint64_t answer = feed(stream, stream_length, room);
    unsigned code = stomp_feed_code(answer);
    if (stomp_feed_taken(answer) > stream_length)
        fail("more is taken than there is", answer, 0);
    if (code != STOMP_FEED_SHORT_BUFFER && code != STOMP_FEED_INVALID_STATE)
        return;
    if (memcmp(state, due_state, STATE) != 0 || memcmp(buffer, due_buffer, room) != 0)
        fail("a call that refuses itself changes something", answer, 0);
}

static size_t take_octet(const uint8_t **octets, size_t *length)
{
    if (*length == 0)
        return 0;
    --*length;
    return *(*octets)++;
}

void fuzz_feed(const uint8_t *octets, size_t length)
{
    size_t mark = take_octet(&octets, &length);
    room = LEAST + (mark >> 1);
    state = our_slice(SECOND, STATE);
    buffer = our_slice(BUFFER, room);
    memset(state, 0, STATE);
    memcpy(our_guard(SECOND, STATE), filled, GUARD);
    memcpy(buffer, filled + GUARD, room);
    memcpy(due_buffer, filled + GUARD, room);
    memcpy(our_guard(BUFFER, room), filled, GUARD);
    if (mark & 1)
        for (size_t i = 0; i < STATE; i++)
            state[i] = (uint8_t)take_octet(&octets, &length);
    size_t counted = take_octet(&octets, &length);
    size_t count = counted & LENGTHS;
    count = count < length ? count : length;
    tellings = octets + count;
    telling_count = counted & TOLD ? count : 0;
    telling_count = telling_count < length - count ? telling_count : length - count;
    stream = tellings + telling_count;
    stream_length = length - count - telling_count;
    start = taken = items = told = 0;
    version = 0;
    if (mark & 1) {
        with_any_state();
        return;
    }
    parse_whole();
    feed_in_vain(stream, stream_length, LEAST - 1, refusal(STOMP_FEED_SHORT_BUFFER, 0));
    in_vain(!in_pieces(octets, count));
}
