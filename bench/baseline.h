/* Parsing, decoding, encoding and looking up of STOMP 1.2 items, and matching, by hand, to compare the proved
 * calls with.
 *
 * The answers are packed as those of stomp_parse, stomp_decode, stomp_encode_with, stomp_find, stomp_later and
 * stomp_match, and a refusal writes nothing. */
#ifndef BASELINE_H
#define BASELINE_H

#include <stddef.h>
#include <stdint.h>

/* Reads each octet once, in plain loops. */
uint64_t baseline_parse(const uint8_t *octets, size_t length);

/* The same, but for a body without content-length, whose end it finds with memchr. */
uint64_t baseline_parse_memchr(const uint8_t *octets, size_t length);

/* Parses as baseline_parse does, goes over the lines once to measure and once to write. */
uint64_t baseline_decode(const uint8_t *frame, size_t length, uint8_t *block, size_t block_length);

/* The same with memchr and memcpy, as one who wants speed would write it. */
uint64_t baseline_decode_memchr(const uint8_t *frame, size_t length, uint8_t *block, size_t block_length);

/* Goes over the block once for its records, once to measure and once to write; looks for octet 0 in the
 * body with memchr, where that decides. */
uint64_t baseline_encode_with(uint32_t options, uint32_t command, const uint8_t *block, size_t block_length,
                              const uint8_t *body, size_t body_length, uint8_t *target, size_t target_length);

/* The same, but texts without an octet that is escaped are copied by memcpy. */
uint64_t baseline_encode_memcpy(uint32_t options, uint32_t command, const uint8_t *block, size_t block_length,
                                const uint8_t *body, size_t body_length, uint8_t *target, size_t target_length);

/* Both go over the block once. */
uint64_t baseline_find(const uint8_t *block, size_t block_length, const uint8_t *name, size_t name_length);
uint64_t baseline_later(const uint8_t *block, size_t block_length, const uint8_t *name, size_t name_length);

/* Goes over name and pattern once for their words, then fills a row of answers. */
uint64_t baseline_match(const uint8_t *name, size_t name_length, const uint8_t *pattern, size_t pattern_length);

/* The calls of a registry, with memcmp. */
uint64_t baseline_registry_open(uint8_t *registry, size_t registry_length, const uint8_t *run, size_t run_length);
uint64_t baseline_registry_close(uint8_t *registry, size_t registry_length, const uint8_t *run, size_t run_length);
uint64_t baseline_registry_publish(uint8_t *registry, size_t registry_length, const uint8_t *run,
                                   size_t run_length, const uint8_t *destination, size_t destination_length,
                                   const uint8_t *text, size_t text_length, uint64_t session);
uint64_t baseline_registry_end(uint8_t *registry, size_t registry_length, uint64_t session);
uint64_t baseline_registry_ask(const uint8_t *registry, size_t registry_length, const uint8_t *run,
                               size_t run_length, const uint8_t *destination, size_t destination_length);

#endif
