/* Calls of decode and encode with what the rules say of them. */
#ifndef WRITTEN_H
#define WRITTEN_H

#include <stdbool.h>
#include <stddef.h>
#include <stdint.h>

#include "row.h"

enum { WRITTEN_PARTS = 5 };

/* A call, and what it writes, or the number and index that it is refused with. */
struct written_example {
    const char *what;
    bool encodes;
    uint32_t options;
    uint32_t command;
    struct part input[WRITTEN_PARTS];
    struct part body[1];
    struct part image[WRITTEN_PARTS];
    unsigned code;
    unsigned index;
};

extern const struct written_example written_examples[];
extern const size_t written_example_count;

#endif
