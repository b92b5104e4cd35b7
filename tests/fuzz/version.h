/* What parsing, decoding and encoding answer and leave in the version of the options, by the baseline. */
#ifndef VERSION_H
#define VERSION_H

#include <stdbool.h>
#include <stddef.h>
#include <stdint.h>

uint64_t version_parse(uint32_t options, const uint8_t *octets, size_t length);
uint64_t version_decode(uint32_t options, const uint8_t *frame, size_t length, uint8_t *block, size_t block_length);
uint64_t version_encode(uint32_t options, uint32_t command, const uint8_t *block, size_t block_length,
                        const uint8_t *body, size_t body_length, uint8_t *target, size_t target_length);

#endif
