/* Whether decode and encode give the answers of the baseline and leave the same buffers. */
#ifndef BUFFERS_H
#define BUFFERS_H

#include <stdbool.h>
#include <stddef.h>
#include <stdint.h>

/* A call of decode, whose input is a frame, or of encode, whose input is a block. */
struct call {
    bool encodes;
    uint32_t options;
    uint32_t command;
    const uint8_t *input;
    size_t input_length;
    const uint8_t *body;
    size_t body_length;
};

void make_buffers(void);

/* One case, with buffers just long enough, longer and shorter. The answer is that of one that is
 * long enough. Ends the program with status 1 where something is wrong. */
uint64_t try_call(const struct call *c);

/* What the last call wrote that was not refused. */
const uint8_t *last_written(void);

/* Ends the program with status 1 and shows the call. */
void fail_call(const char *what, const struct call *c);

/* Decodes these octets; where they are a frame, encodes what they hold, also damaged. */
void try_buffers(const uint8_t *octets, size_t length);

/* Prints how many cases were tried, and fails where one outcome had too few. */
void report_buffers(void);

#endif
