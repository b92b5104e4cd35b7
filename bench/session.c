/* A session by hand: the checks and changes of its calls. */
#include "session.h"

#include <string.h>

#include "rules.h"

enum { BEAT_MAX = 3600000 };

/* The headers that a session looks at. */
enum header {
    ACCEPT_VERSION,
    HEART_BEAT,
    HOST,
    DESTINATION,
    ID,
    TRANSACTION,
    RECEIPT,
    ACK_MODE,
    SUBSCRIPTION,
    MESSAGE_ID,
    HEADERS
};

struct name {
    const char *text;
    size_t length;
};

static const struct name header_names[HEADERS] = {{"accept-version", 14}, {"heart-beat", 10},
                                                  {"host", 4},            {"destination", 11},
                                                  {"id", 2},              {"transaction", 11},
                                                  {"receipt", 7},         {"ack", 3},
                                                  {"subscription", 12},   {"message-id", 10}};

static const struct name mode_names[MODES] = {{"auto", 4}, {"client", 6}, {"client-individual", 17}};

/* The ids of one kind. */
struct store {
    uint8_t *octets;
    uint8_t *lengths;
    size_t places;
};

/* What a frame does with an id. */
enum use { NEED, ENTER, FREE };

/* Built in two variants that differ in this. */
static inline bool equal(const uint8_t *a, const uint8_t *b, size_t length)
{
#ifdef WITH_MEMCMP
    return memcmp(a, b, length) == 0;
#else
    for (size_t i = 0; i < length; i++)
        if (a[i] != b[i])
            return false;
    return true;
#endif
}

static bool is_named(const uint8_t *at, size_t length, const struct name *name)
{
    return length == name->length && equal(at, (const uint8_t *)name->text, length);
}

static inline bool is_zero(const uint8_t *at, size_t length)
{
#ifdef WITH_MEMCMP
    static const uint8_t zeros[DELIVERIES * ID_OCTETS];
    return memcmp(at, zeros, length) == 0;
#else
    unsigned seen = 0;
    for (size_t i = 0; i < length; i++)
        seen |= at[i];
    return seen == 0;
#endif
}

static bool may_offer(const bool flags[3])
{
    return !flags[0] && (flags[1] || flags[2]);
}

/* Whether the versions that both sides have are some, all of them offered. */
static bool may_share(const struct session *s)
{
    for (size_t v = 0; v < 3; v++)
        if (s->shared[v] && !s->offered[v])
            return false;
    return s->shared[0] || s->shared[1] || s->shared[2];
}

/* Whether version 1.1 was chosen. */
static bool speaks_1_1(const struct session *s)
{
    return s->shared[1] && !s->shared[2];
}

/* Whether no length is too large, no octet but 0 stands behind an id, and no id stands twice. */
static bool is_valid_store(const uint8_t *octets, const uint8_t *lengths, size_t places)
{
    for (size_t k = 0; k < places; k++) {
        if (lengths[k] > ID_OCTETS)
            return false;
        for (size_t i = lengths[k]; i < ID_OCTETS; i++)
            if (octets[k * ID_OCTETS + i] != 0)
                return false;
    }
    for (size_t k = 0; k < places; k++)
        for (size_t j = k + 1; j < places && lengths[k] != 0; j++)
            if (lengths[j] == lengths[k] &&
                equal(octets + j * ID_OCTETS, octets + k * ID_OCTETS, lengths[k]))
                return false;
    return true;
}

/* Whether every mode is known and that of a subscription, every delivery has a label and a subscription in
 * another mode than auto, and nothing but 0 is after the last one. */
static bool has_valid_deliveries(const struct session *s)
{
    size_t n = s->pending;
    if (n > DELIVERIES || (n != 0 && s->phase != OPEN))
        return false;
    for (size_t k = 0; k < SUBSCRIPTIONS; k++)
        if (s->modes[k] >= MODES || (s->subscription_lengths[k] == 0 && s->modes[k] != AUTO))
            return false;
    for (size_t k = 0; k < n; k++)
        if (s->label_lengths[k] == 0 || s->owners[k] >= SUBSCRIPTIONS || s->modes[s->owners[k]] == AUTO)
            return false;
    return is_zero(s->labels + n * ID_OCTETS, (DELIVERIES - n) * ID_OCTETS) &&
           is_zero(s->label_lengths + n, DELIVERIES - n) && is_zero(s->owners + n, DELIVERIES - n) &&
           is_valid_store(s->labels, s->label_lengths, n);
}

static bool is_valid(const struct session *s)
{
    if (s->phase > CLOSED || s->sends > BEAT_MAX || s->wants > BEAT_MAX || s->inbound > BEAT_MAX ||
        s->outbound > BEAT_MAX)
        return false;
    if ((s->phase != CLOSED && !may_offer(s->offered)) || (s->phase == OPEN && !may_share(s)))
        return false;
    return is_valid_store(s->subscriptions, s->subscription_lengths, SUBSCRIPTIONS) &&
           is_valid_store(s->transactions, s->transaction_lengths, TRANSACTIONS) && has_valid_deliveries(s);
}

/* Passes all records of the block, keeps the first value of each header and counts its entries; false
 * where it is malformed. */
static bool read_block(const uint8_t *block, size_t length, struct octets values[HEADERS], size_t counts[HEADERS])
{
    for (size_t at = 0; at < length;) {
        if (length - at < HEAD || block[at] != 72 || block[at + 1] != 68)
            return false;
        size_t name = (size_t)block[at + 2] << 8 | block[at + 3];
        size_t value = (size_t)block[at + 4] << 8 | block[at + 5];
        at += HEAD;
        if (length - at < name + value)
            return false;
        for (size_t h = 0; h < HEADERS; h++) {
            if (is_named(block + at, name, &header_names[h])) {
                if (counts[h]++ == 0)
                    values[h] = (struct octets){block + at + name, value};
                break;
            }
        }
        at += name + value;
    }
    return true;
}

static bool opens(uint32_t command)
{
    return command == STOMP_COMMAND_CONNECT || command == STOMP_COMMAND_STOMP;
}

/* 40, 41 or 42, or 0. */
static unsigned phase_refusal(const struct session *s, uint32_t command)
{
    if (s->phase == CLOSED)
        return 40;
    if (command == STOMP_COMMAND_CONNECTED || command == STOMP_COMMAND_ERROR ||
        command == STOMP_COMMAND_MESSAGE || command == STOMP_COMMAND_RECEIPT)
        return 41;
    return s->phase == (opens(command) ? FRESH : OPEN) ? 0 : 42;
}

/* Whether every header that the command needs is there. */
static bool has_needed(const struct session *s, uint32_t command, const struct octets values[HEADERS])
{
    switch (command) {
    case STOMP_COMMAND_CONNECT:
    case STOMP_COMMAND_STOMP: return values[ACCEPT_VERSION].at && values[HOST].at;
    case STOMP_COMMAND_SEND: return values[DESTINATION].at;
    case STOMP_COMMAND_SUBSCRIBE: return values[DESTINATION].at && values[ID].at;
    case STOMP_COMMAND_UNSUBSCRIBE: return values[ID].at;
    case STOMP_COMMAND_ACK:
    case STOMP_COMMAND_NACK:
        return speaks_1_1(s) ? values[SUBSCRIPTION].at && values[MESSAGE_ID].at : values[ID].at != NULL;
    case STOMP_COMMAND_BEGIN:
    case STOMP_COMMAND_COMMIT:
    case STOMP_COMMAND_ABORT: return values[TRANSACTION].at;
    default: return true;
    }
}

static size_t digits(const uint8_t *at, size_t length)
{
    size_t n = 0;
    while (n < length && at[n] >= '0' && at[n] <= '9')
        n++;
    return n;
}

/* The versions of an accept-version value; false where it is malformed. */
static bool read_versions(struct octets value, bool flags[3])
{
    for (size_t at = 0;; at++) {
        size_t start = at;
        size_t major = digits(value.at + at, value.length - at);
        at += major;
        if (major == 0 || at == value.length || value.at[at] != '.')
            return false;
        at++;
        size_t minor = digits(value.at + at, value.length - at);
        at += minor;
        if (minor == 0 || (at < value.length && value.at[at] != ','))
            return false;
        if (major == 1 && minor == 1 && value.at[start] == '1' && value.at[start + 2] <= '2')
            flags[value.at[start + 2] - '0'] = true;
        if (at == value.length)
            return true;
    }
}

/* A number that is not above the largest; false where there is none. */
static bool read_number(const uint8_t *at, size_t length, uint32_t *n)
{
    *n = 0;
    if (length == 0 || digits(at, length) != length)
        return false;
    for (size_t i = 0; i < length; i++) {
        *n = 10 * *n + (at[i] - '0');
        if (*n > BEAT_MAX)
            return false;
    }
    return true;
}

/* The two numbers of a heart-beat value, 0 and 0 where there is none; false where it is malformed. */
static bool read_beats(struct octets value, uint32_t beats[2])
{
    beats[0] = beats[1] = 0;
    if (!value.at)
        return true;
    size_t comma = digits(value.at, value.length);
    return comma < value.length && value.at[comma] == ',' && read_number(value.at, comma, &beats[0]) &&
           read_number(value.at + comma + 1, value.length - comma - 1, &beats[1]);
}

static uint32_t interval(uint32_t a, uint32_t b)
{
    if (a == 0 || b == 0)
        return 0;
    return a < b ? b : a;
}

/* 31, 32 or 33, or 0 and the session open. */
static unsigned open_session(struct session *s, const struct octets values[HEADERS])
{
    bool flags[3] = {false, false, false};
    uint32_t beats[2];
    if (!read_versions(values[ACCEPT_VERSION], flags))
        return 31;
    for (size_t v = 0; v < 3; v++)
        flags[v] = flags[v] && s->offered[v];
    if (!flags[0] && !flags[1] && !flags[2])
        return 32;
    if (!read_beats(values[HEART_BEAT], beats))
        return 33;
    memcpy(s->shared, flags, sizeof flags);
    s->inbound = interval(beats[0], s->wants);
    s->outbound = interval(s->sends, beats[1]);
    s->phase = OPEN;
    return 0;
}

/* The place that holds the id, or the number of places. */
static size_t find_id(const struct store *in, struct octets id)
{
    size_t k = 0;
    while (k < in->places &&
           !(in->lengths[k] == id.length && equal(in->octets + k * ID_OCTETS, id.at, id.length)))
        k++;
    return k;
}

/* The first free place, or the number of places. */
static size_t find_free(const struct store *in)
{
    size_t k = 0;
    while (k < in->places && in->lengths[k] != 0)
        k++;
    return k;
}

/* An id in a place, and 0 behind it; an empty one frees the place. */
static void put_id(struct store *in, size_t place, struct octets id)
{
    for (size_t i = 0; i < ID_OCTETS; i++)
        in->octets[place * ID_OCTETS + i] = i < id.length ? id.at[i] : 0;
    in->lengths[place] = (uint8_t)id.length;
}

/* 44 to 47, or 0 and the place of the id, or the one that it can have. */
static unsigned find_place(const struct store *in, enum use use, struct octets id, size_t *place)
{
    if (id.length == 0 || id.length > ID_OCTETS)
        return 44;
    *place = find_id(in, id);
    if (use != ENTER)
        return *place == in->places ? 46 : 0;
    if (*place < in->places)
        return 45;
    *place = find_free(in);
    return *place == in->places ? 47 : 0;
}

/* ---- deliveries */

/* The mode of an ack value, auto where there is none; MODES where it is unknown. */
static unsigned read_mode(struct octets value)
{
    unsigned mode = AUTO;
    if (!value.at)
        return AUTO;
    while (mode < MODES && !is_named(value.at, value.length, &mode_names[mode]))
        mode++;
    return mode;
}

static struct store subscriptions_of(struct session *s)
{
    return (struct store){s->subscriptions, s->subscription_lengths, SUBSCRIPTIONS};
}

static struct store labels_of(struct session *s)
{
    return (struct store){s->labels, s->label_lengths, s->pending};
}

/* Moves those that stay to the front, in their order, and clears the places after them. */
static void remove_deliveries(struct session *s, const bool gone[DELIVERIES])
{
    size_t kept = 0;
    for (size_t k = 0; k < s->pending; k++) {
        if (gone[k])
            continue;
        if (kept != k)
            memcpy(s->labels + kept * ID_OCTETS, s->labels + k * ID_OCTETS, ID_OCTETS);
        s->label_lengths[kept] = s->label_lengths[k];
        s->owners[kept] = s->owners[k];
        kept++;
    }
    memset(s->labels + kept * ID_OCTETS, 0, (s->pending - kept) * ID_OCTETS);
    memset(s->label_lengths + kept, 0, s->pending - kept);
    memset(s->owners + kept, 0, s->pending - kept);
    s->pending = (uint8_t)kept;
}

/* Those of a subscription's place, up to this one; all where that is the number of them. */
static void remove_of(struct session *s, size_t owner, size_t end)
{
    bool gone[DELIVERIES];
    for (size_t k = 0; k < s->pending; k++)
        gone[k] = k < end && s->owners[k] == owner;
    remove_deliveries(s, gone);
}

static void close_session(struct session *s)
{
    bool gone[DELIVERIES];
    memset(gone, true, sizeof gone);
    s->phase = CLOSED;
    remove_deliveries(s, gone);
}

/* 60, or 0 and what ACK or NACK settles removed; of any subscription where the owner is SUBSCRIPTIONS. */
static unsigned settle(struct session *s, struct octets label, size_t owner)
{
    struct store labels = labels_of(s);
    if (label.length == 0 || label.length > ID_OCTETS)
        return 60;
    size_t named = find_id(&labels, label);
    if (named == labels.places || (owner != SUBSCRIPTIONS && s->owners[named] != owner))
        return 60;
    if (s->modes[s->owners[named]] == CLIENT) {
        remove_of(s, s->owners[named], named + 1);
    } else {
        bool gone[DELIVERIES] = {false};
        gone[named] = true;
        remove_deliveries(s, gone);
    }
    return 0;
}

/* ---- frames */

static unsigned subscribe(struct session *s, struct octets id, struct octets ack)
{
    struct store in = subscriptions_of(s);
    unsigned mode = read_mode(ack);
    size_t place;
    unsigned number = find_place(&in, ENTER, id, &place);
    if (number != 0)
        return number;
    if (mode == MODES)
        return 49;
    put_id(&in, place, id);
    s->modes[place] = (uint8_t)mode;
    return 0;
}

static unsigned unsubscribe(struct session *s, struct octets id)
{
    struct store in = subscriptions_of(s);
    size_t place;
    unsigned number = find_place(&in, FREE, id, &place);
    if (number != 0)
        return number;
    put_id(&in, place, (struct octets){NULL, 0});
    s->modes[place] = AUTO;
    remove_of(s, place, s->pending);
    return 0;
}

/* 44 to 47, or 0 and the transaction entered or freed. */
static unsigned use_transaction(struct session *s, enum use use, struct octets id)
{
    struct store in = {s->transactions, s->transaction_lengths, TRANSACTIONS};
    size_t place;
    unsigned number = find_place(&in, use, id, &place);
    if (number == 0 && use != NEED)
        put_id(&in, place, use == ENTER ? id : (struct octets){NULL, 0});
    return number;
}

/* The lower of two numbers, where 0 is none. */
static unsigned lower(unsigned a, unsigned b)
{
    return a == 0 || (b != 0 && b < a) ? b : a;
}

/* ACK and NACK, with the number of their transaction: in 1.1 they name a subscription too. */
static unsigned acknowledge(struct session *s, const struct octets values[HEADERS], unsigned number)
{
    size_t owner = SUBSCRIPTIONS;
    bool by_1_1 = speaks_1_1(s);
    if (by_1_1) {
        struct store in = subscriptions_of(s);
        number = lower(number, find_place(&in, NEED, values[SUBSCRIPTION], &owner));
    }
    return number != 0 ? number : settle(s, values[by_1_1 ? MESSAGE_ID : ID], owner);
}

/* What the command does with what it names. */
static unsigned name_id(struct session *s, uint32_t command, const struct octets values[HEADERS])
{
    unsigned number = 0;
    switch (command) {
    case STOMP_COMMAND_SUBSCRIBE: return subscribe(s, values[ID], values[ACK_MODE]);
    case STOMP_COMMAND_UNSUBSCRIBE: return unsubscribe(s, values[ID]);
    case STOMP_COMMAND_BEGIN: return use_transaction(s, ENTER, values[TRANSACTION]);
    case STOMP_COMMAND_COMMIT:
    case STOMP_COMMAND_ABORT: return use_transaction(s, FREE, values[TRANSACTION]);
    case STOMP_COMMAND_SEND:
    case STOMP_COMMAND_ACK:
    case STOMP_COMMAND_NACK:
        if (values[TRANSACTION].at)
            number = use_transaction(s, NEED, values[TRANSACTION]);
        return command == STOMP_COMMAND_SEND ? number : acknowledge(s, values, number);
    default: return 0;
    }
}

/* 43 and what follows it, or 0 and the session changed. */
static unsigned act(struct session *s, uint32_t command, const struct octets values[HEADERS])
{
    if (!has_needed(s, command, values))
        return 43;
    if (opens(command))
        return open_session(s, values);
    if (command == STOMP_COMMAND_DISCONNECT) {
        close_session(s);
        return 0;
    }
    return name_id(s, command, values);
}

unsigned session_make(struct session *s, uint32_t sends, uint32_t wants, const bool offered[3])
{
    memset(s, 0, sizeof *s);
    if (sends > BEAT_MAX || wants > BEAT_MAX || !may_offer(offered)) {
        s->phase = CLOSED;
        return 34;
    }
    s->sends = sends;
    s->wants = wants;
    memcpy(s->offered, offered, sizeof s->offered);
    return ACCEPTED;
}

static size_t after_first(size_t count)
{
    return count > 0 ? count - 1 : 0;
}

unsigned session_frame(struct session *s, uint32_t command, const uint8_t *block, size_t length,
                       uint32_t time, struct later *later)
{
    struct octets values[HEADERS] = {{NULL, 0}};
    size_t counts[HEADERS] = {0};
    if (!is_valid(s))
        return 38;
    if (command < 1 || command > COMMANDS || !read_block(block, length, values, counts))
        return 39;
    unsigned number = phase_refusal(s, command);
    if (number == 0)
        number = act(s, command, values);
    if (number != 0) {
        close_session(s);
        return number;
    }
    s->last_heard = time;
    *later = (struct later){after_first(counts[DESTINATION]), after_first(counts[ID]),
                            after_first(counts[TRANSACTION])};
    return values[RECEIPT].at && !opens(command) ? ACCEPTED_RECEIPT : ACCEPTED;
}

unsigned session_heart_beat(struct session *s, uint32_t time)
{
    if (!is_valid(s))
        return 38;
    if (s->phase == CLOSED)
        return 40;
    s->last_heard = time;
    return ACCEPTED;
}

unsigned session_timed_out(const struct session *s, uint32_t time)
{
    if (!is_valid(s))
        return 38;
    return s->phase == OPEN && s->inbound != 0 && time - s->last_heard > 2 * s->inbound ? YES : NO;
}

unsigned session_deliver(struct session *s, struct octets subscription, struct octets label)
{
    struct store subscriptions = subscriptions_of(s);
    struct store labels = labels_of(s);
    size_t owner;
    if (!is_valid(s))
        return 38;
    if (s->phase != OPEN)
        return 63;
    if (find_place(&subscriptions, NEED, subscription, &owner) != 0)
        return 64;
    if (label.length == 0 || label.length > ID_OCTETS || find_id(&labels, label) < labels.places)
        return 62;
    if (s->modes[owner] == AUTO)
        return ACCEPTED;
    if (s->pending == DELIVERIES)
        return 61;
    put_id(&labels, s->pending, label);
    s->owners[s->pending] = (uint8_t)owner;
    s->pending++;
    return ACCEPTED;
}

unsigned session_pending(const struct session *s, uint32_t index, struct delivery *found)
{
    if (!is_valid(s))
        return 38;
    if (index >= s->pending)
        return NO;
    size_t owner = s->owners[index];
    found->mode = s->modes[owner];
    found->subscription =
        (struct octets){s->subscriptions + owner * ID_OCTETS, s->subscription_lengths[owner]};
    found->label = (struct octets){s->labels + index * ID_OCTETS, s->label_lengths[index]};
    return YES;
}
