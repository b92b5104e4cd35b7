/* What the calls that are fuzzed share: rooms for our slices, and what these hold before a call. */
#ifndef FUZZ_H
#define FUZZ_H

#include <stdbool.h>
#include <stddef.h>
#include <stdint.h>

enum { ROOM = 1 << 17, GUARD = 64 };

/* The slices of a call: two are read, one is written; of the stream parser the second is its state, and of
 * a plan all three are read. A registry's call may have a fourth, which is read. */
enum { FIRST, SECOND, BUFFER, SLICES, FOURTH = SLICES, ROOMS };

/* What guards hold, and behind that what buffers hold before a call. */
extern const uint8_t *filled;

/* Where our slice of that length lies, against a page that cannot be touched; and the GUARD octets on its
 * other side. */
uint8_t *our_slice(size_t i, size_t length);
uint8_t *our_guard(size_t i, size_t length);

/* One input of the stream parser: see feed.c. */
void fuzz_feed(const uint8_t *octets, size_t length);

/* One input that checks a plan: see plan.c. */
void fuzz_plan(const uint8_t *octets, size_t length, bool as_records);

/* One input of calls of a registry: see registry.c. */
void fuzz_registry(const uint8_t *octets, size_t length);

#endif
