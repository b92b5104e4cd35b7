/* What captured clients sent. */
#ifndef CAPTURED_H
#define CAPTURED_H

#include <stddef.h>
#include <stdint.h>

enum { MOST_CAPTURED_OCTETS = 1 << 20, MOST_CAPTURED = 1 << 13 };

struct item {
    const uint8_t *octets;
    size_t length;
};

/* The items of all files, laid end to end, and each of them. */
struct captured {
    uint8_t octets[MOST_CAPTURED_OCTETS];
    size_t length;
    struct item items[MOST_CAPTURED];
    size_t count;
};

/* Reads the files, each up to its first item that version 1.2 refuses or that is not finished. Ends the program
 * with status 2 where a file cannot be read or has no room, or where there is no item. */
void read_captured(struct captured *c, char **files, int count);

#endif
