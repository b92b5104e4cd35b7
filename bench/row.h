/* A row of octets that is being made, and damage to it. */
#ifndef ROW_H
#define ROW_H

#include <stddef.h>
#include <stdint.h>

#include "guard.h"

struct row {
    uint8_t octets[ROOM];
    size_t length;
};

/* A text, so many times. */
struct part {
    const char *text;
    size_t length;
    size_t times;
};

#define T(text) {text, sizeof text - 1, 1}
#define N(times, text) {text, sizeof text - 1, times}

/* 510 octets. */
#define X6 "bbbbbb"
#define X56 X6 X6 X6 X6 X6 X6 X6 X6 X6 "bb"
#define X510 X56 X56 X56 X56 X56 X56 X56 X56 X56 X6

void put(struct row *r, const void *octets, size_t length);
void put_times(struct row *r, const char *text, size_t times);
void put_parts(struct row *r, const struct part *parts, size_t count);

/* Alters the row, which is not empty, at one place. */
void damage(struct row *r, uint64_t *seed);

#endif
