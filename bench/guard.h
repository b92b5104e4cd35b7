/* Memory that shows where a call reads or writes out of bounds, and octets shown to a reader. */
#ifndef GUARD_H
#define GUARD_H

#include <stddef.h>
#include <stdint.h>

enum { ROOM = 1 << 17 };

/* The end of ROOM octets before a page that cannot be touched. */
uint8_t *guarded_end(void);

/* Copies the octets to right before that end. */
const uint8_t *at_end(uint8_t *end, const uint8_t *octets, size_t length);

/* Prints the octets to standard error, the middle of long ones left out. */
void show_octets(const char *what, const uint8_t *octets, size_t length);

#endif
