/* Mouhtali: frames of STOMP 1.1 and 1.2, parsed, also piece by piece, decoded, searched and encoded; patterns
 * of names, matched; plans for handing out queued messages, checked; ports kept under the label of a run.
 *
 * stomp_match and stomp_check_plan are in libtopics.a, the calls stomp_registry_.. in libregistry.a, and
 * the other functions in libframes.a, all for x86-64: tools/archives builds them. For C99, C11 and C++.
 * docs/MANUAL.md has the rules of the format, what sets the versions apart, and what to do about each number.
 * A call that is not told a version is of 1.2.
 *
 * A slice is passed as a pointer to its first octet and its length. An empty slice may have any
 * pointer. Slices are used during the call only. The slices of one call must not overlap.
 * Every call takes any octets, and ends. An answer is one number; the readers below take it apart. */
#ifndef STOMP_H
#define STOMP_H

#include <stddef.h>
#include <stdint.h>

#ifdef __cplusplus
extern "C" {
#endif

/* The commands. Only SEND, MESSAGE and ERROR may have a body. */
enum stomp_command {
    STOMP_COMMAND_ABORT = 1,
    STOMP_COMMAND_ACK = 2,
    STOMP_COMMAND_BEGIN = 3,
    STOMP_COMMAND_COMMIT = 4,
    STOMP_COMMAND_CONNECT = 5,
    STOMP_COMMAND_CONNECTED = 6,
    STOMP_COMMAND_DISCONNECT = 7,
    STOMP_COMMAND_ERROR = 8,
    STOMP_COMMAND_MESSAGE = 9,
    STOMP_COMMAND_NACK = 10,
    STOMP_COMMAND_RECEIPT = 11,
    STOMP_COMMAND_SEND = 12,
    STOMP_COMMAND_STOMP = 13,
    STOMP_COMMAND_SUBSCRIBE = 14,
    STOMP_COMMAND_UNSUBSCRIBE = 15
};

/* The sizes. */
enum stomp_size {
    STOMP_MAX_LINES = 32,         /* header lines of a frame */
    STOMP_MAX_LINE = 512,         /* octets of a raw header line, its line end not counted */
    STOMP_MAX_BODY = 32768,       /* octets of a body */
    STOMP_MAX_FRAME = 49228,      /* octets of a frame: holds every encoded frame */
    STOMP_MAX_BLOCK = 16544,      /* octets of a decoded frame's header block: holds those of every frame */
    STOMP_FEED_STATE = 16,        /* octets of a stream parser's state */
    STOMP_FEED_BUFFER = 49228,    /* octets that a stream parser's buffer has at least */
    STOMP_MATCH_MAX_WORDS = 32,   /* words of a name or a pattern */
    STOMP_MATCH_MAX_OCTETS = 256, /* octets of a name or a pattern, points counted */
    STOMP_PLAN_MAX_PAIRS = 64,    /* pairs of a plan */
    STOMP_PLAN_PAIR = 8,          /* octets of a pair */
    STOMP_REGISTRY = 3524,        /* octets of a registry */
    STOMP_REGISTRY_RUNS = 4,      /* runs that are open at a time */
    STOMP_REGISTRY_PLACES = 8,    /* ports of a run */
    STOMP_REGISTRY_MAX_RUN = 32,  /* octets of a run's label */
    STOMP_REGISTRY_MAX_DESTINATION = 32, /* octets of a destination */
    STOMP_REGISTRY_MAX_TEXT = 64  /* octets of a port's text */
};

/* What stomp_parse, stomp_parse_with and stomp_feed found. */
enum stomp_kind {
    STOMP_INCOMPLETE = 0, /* the octets can still be finished: read more */
    STOMP_HEART_BEAT = 1, /* they begin with a heart-beat */
    STOMP_FRAME = 2,      /* they begin with a frame */
    STOMP_INVALID = 3     /* neither: no item begins so; of stomp_feed also 70 and 71 */
};

/* The numbers of stomp_parse and stomp_parse_with: what the octet at the offset does. Where several fit one
 * octet, the first of 1, 2, 11, 10, 3, 8, 9, 4, 5, 6, 7 that fits is given. In version 1.1 octet 13 ends nothing:
 * it is 1 where a heart-beat or a command's line end would begin, and in a header line an octet as any other. */
enum stomp_parse_refusal {
    STOMP_INVALID_COMMAND = 1,        /* leaves no command, and begins no heart-beat */
    STOMP_INVALID_LINE_END = 2,       /* follows 13 and is not 10; never in version 1.1 */
    STOMP_INVALID_EMPTY_NAME = 3,     /* is a colon with an empty name: the header line begins with it */
    STOMP_INVALID_LINE_LENGTH = 4,    /* makes the line longer than STOMP_MAX_LINE, with the rest of a character
                                         or an escape and the colon that it still needs */
    STOMP_INVALID_LINE_COUNT = 5,     /* begins a line too many */
    STOMP_INVALID_CONTENT_LENGTH = 6, /* spoils the first content-length: no digit, or too large */
    STOMP_INVALID_BODY_END = 7,       /* stands where only octet 0 can */
    STOMP_INVALID_SECOND_COLON = 8,   /* is a second colon in a header line; not in CONNECT and CONNECTED,
                                         where later colons belong to the value */
    STOMP_INVALID_NO_COLON = 9,       /* ends a header line, or begins its end, before the colon */
    STOMP_INVALID_ESCAPE = 10,        /* follows a backslash and makes no escape with it; in version 1.1 the
                                         letter r too */
    STOMP_INVALID_UTF8 = 11           /* is one that no UTF-8 character (RFC 3629) has there, in a name or a
                                         value; bodies are not asked */
};

/* The numbers of stomp_feed itself, in the order in which they are given; else it gives those of
 * stomp_parse. */
enum stomp_feed_refusal {
    STOMP_FEED_SHORT_BUFFER = 70, /* the buffer is shorter than STOMP_FEED_BUFFER */
    STOMP_FEED_INVALID_STATE = 71 /* the state is not STOMP_FEED_STATE octets long, or not valid */
};

/* The numbers of stomp_decode and stomp_decode_with. */
enum stomp_decode_refusal {
    STOMP_DECODE_NOT_A_FRAME = 20, /* the octets are not exactly one frame of the version */
    STOMP_DECODE_SHORT_BLOCK = 21  /* the block is shorter than needed */
};

/* The number of stomp_find and stomp_later. */
enum stomp_find_refusal {
    STOMP_FIND_MALFORMED = 22 /* the block is not a row of whole records */
};

/* The options of the calls that have them: bits, to be joined by |. Other bits are not looked at. */
enum stomp_option {
    STOMP_COUNTED = 1, /* of stomp_encode_with: a line with the body's length also where the body holds no
                          octet 0 */
    STOMP_1_1 = 2      /* version 1.1 of the protocol; without it 1.2 */
};

/* The numbers of stomp_encode and stomp_encode_with, in the order in which they are given. */
enum stomp_encode_refusal {
    STOMP_ENCODE_COMMAND = 50,        /* unknown command */
    STOMP_ENCODE_MALFORMED = 51,      /* the block is not a row of whole records */
    STOMP_ENCODE_LINE_COUNT = 52,     /* more than STOMP_MAX_LINES lines, an added one counted */
    STOMP_ENCODE_ENTRY = 53,          /* an empty name, a name or a value that is not UTF-8, a raw line over
                                         STOMP_MAX_LINE, or in CONNECT and CONNECTED octet 10, octet 13 (not in
                                         version 1.1), or a colon in the name; the index says which entry */
    STOMP_ENCODE_BODY = 54,           /* a body is not allowed, or longer than STOMP_MAX_BODY */
    STOMP_ENCODE_CONTENT_LENGTH = 55, /* the first content-length is not the body's length in digits */
    STOMP_ENCODE_SHORT_TARGET = 56    /* the target is shorter than the encoded frame */
};

/* What stomp_match answers where it does not refuse. */
enum stomp_match_answer {
    STOMP_NO_MATCH = 0,
    STOMP_MATCH = 1
};

/* The numbers of stomp_match, in the order in which they are given. */
enum stomp_match_refusal {
    STOMP_MATCH_NAME = 80,   /* the name is malformed */
    STOMP_MATCH_PATTERN = 81 /* the pattern is malformed */
};

/* The numbers of stomp_check_plan: STOMP_PLAN_TOO_MANY_PAIRS, else STOMP_PLAN_MALFORMED; else of the
 * first bad pair the lowest that fits; else STOMP_PLAN_LEFT_OUT. */
enum stomp_plan_refusal {
    STOMP_PLAN_UNKNOWN_MESSAGE = 96, /* no such message waits */
    STOMP_PLAN_MESSAGE_AGAIN = 97,   /* an earlier pair has the message */
    STOMP_PLAN_NOT_MATCHING = 98,    /* the subscription is not live, or does not match the destination */
    STOMP_PLAN_OVER_ROOM = 99,       /* the earlier pairs take all the subscription's room */
    STOMP_PLAN_LEFT_OUT = 100,       /* no pair is bad, and no pair has a message that waits */
    STOMP_PLAN_TOO_MANY_PAIRS = 101, /* more than STOMP_PLAN_MAX_PAIRS whole pairs */
    STOMP_PLAN_MALFORMED = 102       /* a list is not of whole records, a number is twice among the
                                        messages or among the subscriptions, or a destination or pattern
                                        is malformed */
};

/* The numbers of the calls stomp_registry_..: 89 first, then 90, then the call's own in this order. */
enum stomp_registry_refusal {
    STOMP_REGISTRY_INVALID = 89,      /* the registry is not STOMP_REGISTRY octets long, or not valid */
    STOMP_REGISTRY_SIZE = 90,         /* a text of the call is empty or too long */
    STOMP_REGISTRY_NOT_OPEN = 91,     /* no run of that label is open */
    STOMP_REGISTRY_HELD = 92,         /* another session's port is under the destination */
    STOMP_REGISTRY_FULL = 93,         /* the destination is new, and all places of the run are taken */
    STOMP_REGISTRY_ALREADY_OPEN = 94, /* a run of that label is open */
    STOMP_REGISTRY_RUNS_TAKEN = 95    /* STOMP_REGISTRY_RUNS runs are open */
};

/* Parses the first item of the octets. Octets after it change nothing. Writes nothing.
 *
 * The answer is 0 where they are incomplete, 1 + 4*length for a heart-beat,
 * 2 + 4*(length + 2^16*(command + 2^4*(headers + 2^6*(body + 2^16*body_len)))) for a frame,
 * 3 + 4*(code + 2^8*offset) where they are invalid, with a number from 1 to 11. */
uint64_t stomp_parse(const uint8_t *octets, size_t len);

/* The same with options; with 0 it is stomp_parse. With STOMP_1_1 the octets are read by version 1.1: a line
 * end is octet 10 alone, octet 13 is an ordinary one in header lines, `\r` is no escape, and 2 is never
 * given. */
uint64_t stomp_parse_with(uint32_t options, const uint8_t *octets, size_t len);

/* Parses a stream as it arrives, piece by piece; a piece may be empty. `state` is the stream parser,
 * STOMP_FEED_STATE octets, all 0 before a stream's first piece. `buffer` holds the octets of the item
 * under way; it has at least STOMP_FEED_BUFFER octets, and need not be cleared. Both are handed back
 * as the last call left them. With any others the call is safe, but what it finds is not the stream's,
 * and its numbers may go up to four octets beyond the buffer. An item is read by version 1.2, or by the one
 * that stomp_feed_tell told last before its first octet.
 *
 * The piece is taken up to the end of the item under way, or up to the octet refused, or whole. What
 * is taken is in the buffer after what was taken of that item before, so the item, or what is before
 * the octet refused, is at the buffer's front; the rest of the buffer stays as it was.
 * A call finds one item at most: hand in what is left of the piece, until the call is incomplete.
 * After a refusal every call repeats it, and takes and writes nothing: a new stream begins with a
 * state of 0.
 *
 * The answer is 4*taken where the item is incomplete, 1 + 4*(taken + 2^16*length) for a heart-beat,
 * 2 + 4*(taken + 2^16*(command + 2^4*(headers + 2^6*(body + 2^16*body_len)))) for a frame, whose
 * length is body + body_len + 1, and 3 + 4*(taken + 2^16*(code + 2^8*offset)) where it is refused:
 * with 70, else 71, nothing is taken or changed and the offset is 0; else the number is one of
 * stomp_parse, and the offset counts from the item's start. `state`, `buffer` and `piece` must not
 * overlap. */
uint64_t stomp_feed(uint8_t *state, size_t state_len, uint8_t *buffer, size_t buffer_len,
                    const uint8_t *piece, size_t piece_len);

/* Tells the stream parser the version of the items from here on: 1.1 with STOMP_1_1, else 1.2. A state of 0
 * reads by 1.2. Call it between items: after stomp_feed found one, and before the first octet of the next is
 * handed in. So tell the version as soon as the opening frame is found, before what is left of its piece.
 *
 * The answer is 1 where it is taken. It is 0, and nothing changes, inside an item, after a refusal, and where the
 * state is not STOMP_FEED_STATE octets long or not valid. */
uint64_t stomp_feed_tell(uint8_t *state, size_t state_len, uint32_t options);

/* Decodes the header lines of one frame into a header block: for each line, in order, a record of
 * the octets 72 68, the lengths of name and value in two octets each, high first, then the name and
 * the value, escapes replaced. `frame` must be exactly one frame, as long as stomp_parse says.
 *
 * The answer is the length of the records, or 2^16*code: 20, else 21. The records are at the
 * front of the block, and what is after them stays as it was. Where it is refused nothing is
 * written. `frame` and `block` must not overlap. */
uint64_t stomp_decode(const uint8_t *frame, size_t frame_len, uint8_t *block, size_t block_len);

/* The same with options; with 0 it is stomp_decode. With STOMP_1_1 it decodes one frame of version 1.1: take the
 * options that the frame was parsed with. */
uint64_t stomp_decode_with(uint32_t options, const uint8_t *frame, size_t frame_len, uint8_t *block,
                           size_t block_len);

/* Finds the first value of a name in a header block. `block_len` is the length in use, as
 * stomp_decode answered it, and not that of the buffer. Writes nothing.
 *
 * The answer is 0 where no entry has the name, 1 where the block is malformed (22), else the place
 * in the block where the value starts, at least 6. The value's length is the two octets
 * at start - name_len - 2, high first. `block` and `name` must not overlap. */
uint64_t stomp_find(const uint8_t *block, size_t block_len, const uint8_t *name, size_t name_len);

/* How many later entries of a name follow the first: one that is not 0 says that a newer entry was put
 * before an older one, which no longer counts. The slices are those of stomp_find. Writes nothing.
 *
 * The answer is that number, 0 where no entry has the name, and 2^63 + 22 where the block is malformed,
 * which no count is. `block` and `name` must not overlap. */
uint64_t stomp_later(const uint8_t *block, size_t block_len, const uint8_t *name, size_t name_len);

/* Encodes a frame: the command, the entries of the block in order, escaped where the command has
 * escapes, and the body. Where the body holds octet 0 and no entry is named content-length, a line
 * with the body's length follows the entries: without it the body would end at that octet.
 *
 * The answer is the length of the encoded frame, or 2^16*code + index: the first of 50 to 56 that
 * fits, and the entry's index from 0 with 53, else index 0. The frame is at the front of the
 * target, and what is after it stays as it was. Where it is refused nothing is written. `block`,
 * `body` and `target` must not overlap. */
uint64_t stomp_encode(uint32_t command, const uint8_t *block, size_t block_len, const uint8_t *body,
                      size_t body_len, uint8_t *target, size_t target_len);

/* The same with options; with 0 it is stomp_encode. With STOMP_COUNTED the line is added wherever the
 * body is not empty and no entry is named content-length. With STOMP_1_1 the frame is one of version 1.1: octet
 * 13 is written as it is, in CONNECT and CONNECTED too. */
uint64_t stomp_encode_with(uint32_t options, uint32_t command, const uint8_t *block, size_t block_len,
                           const uint8_t *body, size_t body_len, uint8_t *target, size_t target_len);

/* Whether a pattern matches a name. Both are words with a point (46) between each two: 1 to
 * STOMP_MATCH_MAX_WORDS words, none of them empty, and at most STOMP_MATCH_MAX_OCTETS octets. In a
 * pattern the word `*` stands for exactly one word of the name, the word `#` for none or more; in a
 * longer word, or in a name, both are ordinary octets. Writes nothing.
 *
 * The answer is STOMP_MATCH, STOMP_NO_MATCH or 2^16*code: 80, else 81. `name` and `pattern` must not
 * overlap. */
uint64_t stomp_match(const uint8_t *name, size_t name_len, const uint8_t *pattern, size_t pattern_len);

/* Whether a plan hands out each waiting message exactly once, and no other, to a live subscription whose
 * pattern matches its destination, and none gets more messages than its room. Each list is a row of
 * records, numbers in four octets, high first: a message is its number, the length of its destination in
 * two octets, high first, and the destination; a subscription its number, the length of its pattern, the
 * pattern, and its room in four octets; a pair the number of a message and that of a subscription.
 * Destinations and patterns are as for stomp_match. Writes nothing.
 *
 * The answer is 0 where the plan is accepted, else 2^32*code, plus with 96 to 99 the index of the first bad
 * pair, from 0, with 100 the number of the first listed message that is left out. The slices must not
 * overlap. */
uint64_t stomp_check_plan(const uint8_t *messages, size_t messages_len, const uint8_t *subscriptions,
                          size_t subscriptions_len, const uint8_t *plan, size_t plan_len);

/* A registry of ports under the labels of runs. `registry` is STOMP_REGISTRY octets that the caller
 * keeps: all 0 is an empty one, and it is handed back as the last call left it. A run has a label of 1 to
 * STOMP_REGISTRY_MAX_RUN octets; each open run has STOMP_REGISTRY_PLACES places of its own. A call that
 * refuses leaves the registry as it was. The slices of one call must not overlap.
 *
 * Opens a run, with no ports: 0, or the first of 89, 90, 94, 95 that fits. */
uint64_t stomp_registry_open(uint8_t *registry, size_t registry_len, const uint8_t *run, size_t run_len);

/* Closes a run and withdraws its ports: 0, or the first of 89, 90, 91 that fits. */
uint64_t stomp_registry_close(uint8_t *registry, size_t registry_len, const uint8_t *run, size_t run_len);

/* Publishes a port: a text of 1 to STOMP_REGISTRY_MAX_TEXT octets under a run and a destination of 1 to
 * STOMP_REGISTRY_MAX_DESTINATION octets, for a session, which any number may name. Under a destination
 * that the session holds already the text is replaced. 0, or the first of 89 to 93 that fits. */
uint64_t stomp_registry_publish(uint8_t *registry, size_t registry_len, const uint8_t *run, size_t run_len,
                                const uint8_t *destination, size_t destination_len, const uint8_t *text,
                                size_t text_len, uint64_t session);

/* Withdraws the ports that a session published, in every run: 0, or 89. */
uint64_t stomp_registry_end(uint8_t *registry, size_t registry_len, uint64_t session);

/* Asks for the port under a run and a destination. Writes nothing. The answer is 2^16*length + start,
 * where the port's text is `length` octets of the registry from `start` on; 0 where the run is open and
 * has none; or the first of 89, 90, 91 that fits. The text is there until the next call that changes the
 * registry. */
uint64_t stomp_registry_ask(const uint8_t *registry, size_t registry_len, const uint8_t *run, size_t run_len,
                            const uint8_t *destination, size_t destination_len);

/* Readers of what stomp_parse and stomp_parse_with answered. */

static inline enum stomp_kind stomp_parse_kind(uint64_t answer)
{
    return (enum stomp_kind)(answer & 3);
}

/* Octets used: the length of the heart-beat or frame; else 0. The next item begins there. */
static inline size_t stomp_parse_used(uint64_t answer)
{
    if (stomp_parse_kind(answer) == STOMP_HEART_BEAT)
        return (size_t)(answer >> 2);
    return stomp_parse_kind(answer) == STOMP_FRAME ? (size_t)(answer >> 2 & 0xffff) : 0;
}

/* The number of the frame's command; of anything else 0. */
static inline uint32_t stomp_parse_command(uint64_t answer)
{
    return stomp_parse_kind(answer) == STOMP_FRAME ? (uint32_t)(answer >> 18 & 0xf) : 0;
}

/* How many header lines the frame has; of anything else 0. */
static inline size_t stomp_parse_headers(uint64_t answer)
{
    return stomp_parse_kind(answer) == STOMP_FRAME ? (size_t)(answer >> 22 & 0x3f) : 0;
}

/* Where in the frame the body starts, which is the place of octet 0 if it is empty; of anything else 0. */
static inline size_t stomp_parse_body(uint64_t answer)
{
    return stomp_parse_kind(answer) == STOMP_FRAME ? (size_t)(answer >> 28 & 0xffff) : 0;
}

/* The length of the frame's body; of anything else 0. */
static inline size_t stomp_parse_body_length(uint64_t answer)
{
    return stomp_parse_kind(answer) == STOMP_FRAME ? (size_t)(answer >> 44) : 0;
}

/* The number of the refusal, from 1 to 11; 0 where it was not refused. */
static inline unsigned stomp_parse_code(uint64_t answer)
{
    return stomp_parse_kind(answer) == STOMP_INVALID ? (unsigned)(answer >> 2 & 0xff) : 0;
}

/* The place of the first octet that no item can have there; 0 where it was not refused. */
static inline size_t stomp_parse_offset(uint64_t answer)
{
    return stomp_parse_kind(answer) == STOMP_INVALID ? (size_t)(answer >> 10) : 0;
}

/* Readers of what stomp_feed answered. Places count from the item's start, and so from the buffer's. */

static inline enum stomp_kind stomp_feed_kind(uint64_t answer)
{
    return (enum stomp_kind)(answer & 3);
}

/* How many octets of the piece are taken. */
static inline size_t stomp_feed_taken(uint64_t answer)
{
    return stomp_feed_kind(answer) == STOMP_INCOMPLETE ? (size_t)(answer >> 2) : (size_t)(answer >> 2 & 0xffff);
}

/* The number of the frame's command; of anything else 0. */
static inline uint32_t stomp_feed_command(uint64_t answer)
{
    return stomp_feed_kind(answer) == STOMP_FRAME ? (uint32_t)(answer >> 18 & 0xf) : 0;
}

/* How many header lines the frame has; of anything else 0. */
static inline size_t stomp_feed_headers(uint64_t answer)
{
    return stomp_feed_kind(answer) == STOMP_FRAME ? (size_t)(answer >> 22 & 0x3f) : 0;
}

/* Where in the buffer the frame's body starts; of anything else 0. */
static inline size_t stomp_feed_body(uint64_t answer)
{
    return stomp_feed_kind(answer) == STOMP_FRAME ? (size_t)(answer >> 28 & 0xffff) : 0;
}

/* The length of the frame's body; of anything else 0. */
static inline size_t stomp_feed_body_length(uint64_t answer)
{
    return stomp_feed_kind(answer) == STOMP_FRAME ? (size_t)(answer >> 44) : 0;
}

/* The length of the heart-beat or frame, which stands at the buffer's front; else 0. */
static inline size_t stomp_feed_used(uint64_t answer)
{
    if (stomp_feed_kind(answer) == STOMP_HEART_BEAT)
        return (size_t)(answer >> 18);
    if (stomp_feed_kind(answer) == STOMP_FRAME)
        return stomp_feed_body(answer) + stomp_feed_body_length(answer) + 1;
    return 0;
}

/* The number of the refusal; 0 where it was not refused. */
static inline unsigned stomp_feed_code(uint64_t answer)
{
    return stomp_feed_kind(answer) == STOMP_INVALID ? (unsigned)(answer >> 18 & 0xff) : 0;
}

/* The place of the first octet that no item can have there; 0 where it was not refused. */
static inline size_t stomp_feed_offset(uint64_t answer)
{
    return stomp_feed_kind(answer) == STOMP_INVALID ? (size_t)(answer >> 26) : 0;
}

/* Readers of what stomp_decode, stomp_decode_with, stomp_encode, stomp_encode_with and stomp_match answered. */

/* Whether it was refused, and nothing is written. */
static inline int stomp_refused(uint64_t answer)
{
    return answer > 0xffff;
}

/* The number of the refusal; 0 where it was not refused. */
static inline unsigned stomp_code(uint64_t answer)
{
    return (unsigned)(answer >> 16);
}

/* The index of the entry that encoding refused with 53; else 0. */
static inline size_t stomp_index(uint64_t answer)
{
    return stomp_refused(answer) ? (size_t)(answer & 0xffff) : 0;
}

/* How many octets were written; 0 where it was refused. */
static inline size_t stomp_length(uint64_t answer)
{
    return stomp_refused(answer) ? 0 : (size_t)answer;
}

/* A reader of what stomp_match answered: whether the pattern matches. It is 0 where it was refused. */
static inline int stomp_matches(uint64_t answer)
{
    return answer == (uint64_t)STOMP_MATCH;
}

/* Readers of what stomp_check_plan answered. */

/* The number of the refusal; 0 where the plan is accepted. */
static inline unsigned stomp_plan_code(uint64_t answer)
{
    return (unsigned)(answer >> 32);
}

/* The index of the first bad pair, with 96 to 99; else 0. */
static inline size_t stomp_plan_index(uint64_t answer)
{
    return stomp_plan_code(answer) < (unsigned)STOMP_PLAN_LEFT_OUT ? (size_t)(answer & 0xffffffff) : 0;
}

/* The number of the message left out, with 100; else 0. */
static inline uint32_t stomp_plan_message(uint64_t answer)
{
    return stomp_plan_code(answer) == (unsigned)STOMP_PLAN_LEFT_OUT ? (uint32_t)(answer & 0xffffffff) : 0;
}

/* Readers of what the calls stomp_registry_.. answered; stomp_refused and stomp_code are not for these. */

/* The number of the refusal; 0 where it was not refused. */
static inline unsigned stomp_registry_code(uint64_t answer)
{
    return answer < 0x10000 ? (unsigned)answer : 0;
}

/* The length of the text that stomp_registry_ask found; 0 where there is none, or it was refused. */
static inline size_t stomp_registry_length(uint64_t answer)
{
    return (size_t)(answer >> 16);
}

/* Where in the registry that text starts; 0 where there is none, or it was refused. */
static inline size_t stomp_registry_start(uint64_t answer)
{
    return stomp_registry_length(answer) ? (size_t)(answer & 0xffff) : 0;
}

/* Readers of what stomp_find answered. */

/* Whether an entry has the name. */
static inline int stomp_found(uint64_t answer)
{
    return answer > 1;
}

/* 22 where the block is malformed, else 0. */
static inline unsigned stomp_find_code(uint64_t answer)
{
    return answer == 1 ? (unsigned)STOMP_FIND_MALFORMED : 0;
}

/* Where in the block the value starts; 0 where none was found. */
static inline size_t stomp_find_start(uint64_t answer)
{
    return stomp_found(answer) ? (size_t)answer : 0;
}

/* The length of the value, read from the block that was searched for a name of this length; 0 where
 * none was found. */
static inline size_t stomp_find_length(uint64_t answer, const uint8_t *block, size_t name_len)
{
    const uint8_t *octets;
    if (!stomp_found(answer))
        return 0;
    octets = block + stomp_find_start(answer) - name_len - 2;
    return (size_t)octets[0] << 8 | octets[1];
}

/* A reader of what stomp_later answered: 22 where the block is malformed, else 0, and the answer is the
 * count. */
static inline unsigned stomp_later_code(uint64_t answer)
{
    return answer >> 63 ? (unsigned)(answer & 0xff) : 0;
}

#ifdef __cplusplus
}
#endif

#endif
