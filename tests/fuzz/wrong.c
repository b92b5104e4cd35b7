/* Calls with one mistake, WRONG, for selftest: the right ones are those of the archive, renamed. */
#include "../../include/stomp.h"

uint64_t right_parse(const uint8_t *octets, size_t len);
uint64_t right_parse_with(uint32_t options, const uint8_t *octets, size_t len);
uint64_t right_decode_with(uint32_t options, const uint8_t *frame, size_t frame_len, uint8_t *block,
                           size_t block_len);
uint64_t right_feed_tell(uint8_t *state, size_t state_len, uint32_t options);
uint64_t right_decode(const uint8_t *frame, size_t frame_len, uint8_t *block, size_t block_len);
uint64_t right_find(const uint8_t *block, size_t block_len, const uint8_t *name, size_t name_len);
uint64_t right_later(const uint8_t *block, size_t block_len, const uint8_t *name, size_t name_len);
uint64_t right_feed(uint8_t *state, size_t state_len, uint8_t *buffer, size_t buffer_len, const uint8_t *piece,
                    size_t piece_len);
uint64_t right_encode_with(uint32_t options, uint32_t command, const uint8_t *block, size_t block_len,
                           const uint8_t *body, size_t body_len, uint8_t *target, size_t target_len);
uint64_t right_encode(uint32_t command, const uint8_t *block, size_t block_len, const uint8_t *body,
                      size_t body_len, uint8_t *target, size_t target_len);
uint64_t right_match(const uint8_t *name, size_t name_len, const uint8_t *pattern, size_t pattern_len);
uint64_t right_check_plan(const uint8_t *messages, size_t messages_len, const uint8_t *subscriptions,
                          size_t subscriptions_len, const uint8_t *plan, size_t plan_len);
uint64_t right_registry_open(uint8_t *registry, size_t registry_len, const uint8_t *run, size_t run_len);
uint64_t right_registry_publish(uint8_t *registry, size_t registry_len, const uint8_t *run, size_t run_len,
                                const uint8_t *destination, size_t destination_len, const uint8_t *text,
                                size_t text_len, uint64_t session);
uint64_t right_registry_end(uint8_t *registry, size_t registry_len, uint64_t session);
uint64_t right_registry_ask(const uint8_t *registry, size_t registry_len, const uint8_t *run, size_t run_len,
                            const uint8_t *destination, size_t destination_len);

/* 1: reads the octet behind its slice; 21: tells an octet that no character has after a backslash as a wrong
 * escape. */
uint64_t stomp_parse(const uint8_t *octets, size_t len)
{
    if (WRONG == 1)
        (void)*(const volatile uint8_t *)(octets + len);
    uint64_t answer = right_parse(octets, len);
    size_t offset = stomp_parse_offset(answer);
    if (WRONG == 21 && stomp_parse_code(answer) == STOMP_INVALID_UTF8 && offset > 0 && octets[offset - 1] == '\\')
        answer -= 4 * (STOMP_INVALID_UTF8 - STOMP_INVALID_ESCAPE);
    return answer;
}

/* 28: takes 13 and then 10 for a line end in version 1.1 too. */
uint64_t stomp_parse_with(uint32_t options, const uint8_t *octets, size_t len)
{
    for (size_t i = 1; WRONG == 28 && i < len; i++)
        if (octets[i - 1] == 13 && octets[i] == 10)
            options = 0;
    return right_parse_with(options, octets, len);
}

/* 30: decodes every frame by version 1.2. */
uint64_t stomp_decode_with(uint32_t options, const uint8_t *frame, size_t frame_len, uint8_t *block,
                           size_t block_len)
{
    return right_decode_with(WRONG == 30 ? 0 : options, frame, frame_len, block, block_len);
}

/* 2: writes the octet before the block; 3: the one behind it; 4: the one behind the records. */
uint64_t stomp_decode(const uint8_t *frame, size_t frame_len, uint8_t *block, size_t block_len)
{
    uint64_t answer = right_decode(frame, frame_len, block, block_len);
    if (WRONG == 2)
        block[-1]++;
    if (WRONG == 3)
        block[block_len]++;
    if (WRONG == 4 && stomp_length(answer) < block_len)
        block[stomp_length(answer)]++;
    return answer;
}

/* 5: says of a malformed block that the name is not there. */
uint64_t stomp_find(const uint8_t *block, size_t block_len, const uint8_t *name, size_t name_len)
{
    uint64_t answer = right_find(block, block_len, name, name_len);
    return WRONG == 5 && answer == 1 ? 0 : answer;
}

/* 27: counts the first entry too. */
uint64_t stomp_later(const uint8_t *block, size_t block_len, const uint8_t *name, size_t name_len)
{
    uint64_t answer = right_later(block, block_len, name, name_len);
    return WRONG == 27 && stomp_found(right_find(block, block_len, name, name_len)) ? answer + 1 : answer;
}

/* 6: takes the lowest 16 bits of the command only; 7: writes where the body is refused. */
uint64_t stomp_encode(uint32_t command, const uint8_t *block, size_t block_len, const uint8_t *body,
                      size_t body_len, uint8_t *target, size_t target_len)
{
    if (WRONG == 6)
        command &= 0xffff;
    uint64_t answer = right_encode(command, block, block_len, body, body_len, target, target_len);
    if (WRONG == 7 && stomp_code(answer) == STOMP_ENCODE_BODY && target_len > 0)
        target[0]++;
    return answer;
}

/* 13: does not look at the options; 14: takes every option for a length line; 31: writes by version 1.2. */
uint64_t stomp_encode_with(uint32_t options, uint32_t command, const uint8_t *block, size_t block_len,
                           const uint8_t *body, size_t body_len, uint8_t *target, size_t target_len)
{
    if (WRONG == 13)
        options = 0;
    if (WRONG == 14)
        options = STOMP_COUNTED;
    if (WRONG == 31)
        options &= STOMP_COUNTED;
    return right_encode_with(options, command, block, block_len, body, body_len, target, target_len);
}

/* 8: takes the octet that is refused; 9: goes on after a refusal; 10: writes an octet behind what it takes;
 * 11: forgets what it has read where a piece is empty; 12: changes a state that it refuses; 22: takes a piece's
 * end for an octet of the character that it cuts. */
uint64_t stomp_feed(uint8_t *state, size_t state_len, uint8_t *buffer, size_t buffer_len, const uint8_t *piece,
                    size_t piece_len)
{
    uint64_t answer = right_feed(state, state_len, buffer, buffer_len, piece, piece_len);
    int refused = stomp_feed_code(answer) > 0 && stomp_feed_code(answer) < STOMP_FEED_SHORT_BUFFER;
    if (WRONG == 8 && refused && stomp_feed_taken(answer) < piece_len)
        answer += 4;
    if (WRONG == 9 && refused)
        state[0] = 0, state[5] = 0, state[10] = 0, state[11] = 0;
    if (WRONG == 10 && stomp_feed_kind(answer) == STOMP_FRAME)
        buffer[stomp_feed_used(answer)]++;
    if (WRONG == 11 && piece_len == 0 && stomp_feed_kind(answer) == STOMP_INCOMPLETE)
        for (size_t i = 0; i < state_len; i++)
            state[i] = 0;
    if (WRONG == 22 && stomp_feed_kind(answer) == STOMP_INCOMPLETE && state[14] == 2)
        state[14] = 1;
    if (WRONG == 12 && stomp_feed_code(answer) == STOMP_FEED_INVALID_STATE)
        state[0]++;
    return answer;
}

/* 29: takes a version inside an item. */
uint64_t stomp_feed_tell(uint8_t *state, size_t state_len, uint32_t options)
{
    uint64_t answer = right_feed_tell(state, state_len, options);
    if (WRONG != 29 || answer == 1 || state_len != STOMP_FEED_STATE || state[0] == 0 || state[0] > 13)
        return answer;
    state[12] = (options & STOMP_1_1) != 0;
    return 1;
}

/* 15: a malformed pattern is told before a malformed name; 16: one word `#` takes no more than one word. */
uint64_t stomp_match(const uint8_t *name, size_t name_len, const uint8_t *pattern, size_t pattern_len)
{
    static const uint8_t a[] = "a";
    if (WRONG == 15 && stomp_refused(right_match(a, 1, pattern, pattern_len)))
        return right_match(a, 1, pattern, pattern_len);
    if (WRONG == 16 && pattern_len == 1 && pattern[0] == '#')
        return right_match(name, name_len, (const uint8_t *)"*", 1);
    return right_match(name, name_len, pattern, pattern_len);
}

/* 17: accepts a message that is left out; 18: says 98 of a pair whose message an earlier one has; 19: reads
 * the octet behind the plan; 20: counts the index from 1. */
uint64_t stomp_check_plan(const uint8_t *messages, size_t messages_len, const uint8_t *subscriptions,
                          size_t subscriptions_len, const uint8_t *plan, size_t plan_len)
{
    uint64_t answer = right_check_plan(messages, messages_len, subscriptions, subscriptions_len, plan, plan_len);
    unsigned code = stomp_plan_code(answer);
    if (WRONG == 17 && code == STOMP_PLAN_LEFT_OUT)
        return 0;
    if (WRONG == 18 && code == STOMP_PLAN_MESSAGE_AGAIN)
        return answer + ((uint64_t)1 << 32);
    if (WRONG == 19)
        (void)*(const volatile uint8_t *)(plan + plan_len);
    if (WRONG == 20 && code > 0 && code < STOMP_PLAN_LEFT_OUT)
        return answer + 1;
    return answer;
}

/* 23: changes the record where it refuses. */
uint64_t stomp_registry_open(uint8_t *registry, size_t registry_len, const uint8_t *run, size_t run_len)
{
    uint64_t answer = right_registry_open(registry, registry_len, run, run_len);
    if (WRONG == 23 && answer == STOMP_REGISTRY_ALREADY_OPEN)
        registry[1]++;
    return answer;
}

/* 24: lets a session replace another one's port. */
uint64_t stomp_registry_publish(uint8_t *registry, size_t registry_len, const uint8_t *run, size_t run_len,
                                const uint8_t *destination, size_t destination_len, const uint8_t *text,
                                size_t text_len, uint64_t session)
{
    uint64_t answer = right_registry_publish(registry, registry_len, run, run_len, destination, destination_len,
                                             text, text_len, session);
    for (uint64_t other = 0; WRONG == 24 && answer == STOMP_REGISTRY_HELD && other < 256; other++)
        answer = right_registry_publish(registry, registry_len, run, run_len, destination, destination_len, text,
                                        text_len, other);
    return answer;
}

/* 25: leaves the ports of session 0 and of those over 255. */
uint64_t stomp_registry_end(uint8_t *registry, size_t registry_len, uint64_t session)
{
    if (WRONG == 25 && (session == 0 || session > 255))
        session = 256;
    return right_registry_end(registry, registry_len, session);
}

/* 26: says of a run that is not open that it has no port. */
uint64_t stomp_registry_ask(const uint8_t *registry, size_t registry_len, const uint8_t *run, size_t run_len,
                            const uint8_t *destination, size_t destination_len)
{
    uint64_t answer = right_registry_ask(registry, registry_len, run, run_len, destination, destination_len);
    return WRONG == 26 && answer == STOMP_REGISTRY_NOT_OPEN ? 0 : answer;
}
