/* The calls that are compared. Their answers are read as include/stomp.h does it. */
#ifndef CALLS_H
#define CALLS_H

#include <stddef.h>
#include <stdint.h>

typedef uint64_t parser(const uint8_t *octets, size_t length);
typedef uint64_t decoder(const uint8_t *frame, size_t length, uint8_t *block, size_t block_length);
typedef uint64_t encoder(uint32_t options, uint32_t command, const uint8_t *block, size_t block_length,
                         const uint8_t *body, size_t body_length, uint8_t *target, size_t target_length);

typedef uint64_t finder(const uint8_t *block, size_t block_length, const uint8_t *name, size_t name_length);

/* Ours: whatever is linked under the names of include/stomp.h. The third is C with memchr and memcpy; find
 * has none. The fourth is the code before, where it is linked. */
enum { OURS, BASELINE, PAIR, FAST = PAIR, COMPARED, BEFORE = COMPARED, VARIANTS };

extern parser *const parsers[VARIANTS];
extern decoder *const decoders[VARIANTS];
extern encoder *const encoders[VARIANTS];
extern finder *const finders[PAIR];
extern finder *const counters[PAIR];
extern const char *const names[VARIANTS];

#endif
