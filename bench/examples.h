/* Inputs with the answers that the rules give them. */
#ifndef EXAMPLES_H
#define EXAMPLES_H

#include <stddef.h>
#include <stdint.h>

#include "row.h"

enum { PARTS = 6 };

/* An input is its parts, one after another. */
struct example {
    const char *what;
    uint64_t answer;
    struct part parts[PARTS];
};

extern const struct example examples[];
extern const size_t example_count;

#endif
