/* Reads what captured clients sent. */
#include "captured.h"

#include <stdbool.h>
#include <stdio.h>
#include <stdlib.h>

#include "../include/stomp.h"
#include "baseline.h"

/* Reads a file behind what is there: where it ends. */
static size_t read_file(struct captured *c, const char *name)
{
    size_t room = MOST_CAPTURED_OCTETS - c->length;
    FILE *file = fopen(name, "rb");
    if (!file) {
        perror(name);
        exit(2);
    }
    size_t got = fread(c->octets + c->length, 1, room, file);
    if (got == room || ferror(file)) {
        fprintf(stderr, "bench: %s: too long, or not read\n", name);
        exit(2);
    }
    fclose(file);
    return c->length + got;
}

/* Takes the next item: whether there is one. The second variant, since what baseline_parse does may be counted. */
static bool take_item(struct captured *c, size_t end)
{
    const uint8_t *octets = c->octets + c->length;
    size_t used = stomp_parse_used(baseline_parse_memchr(octets, end - c->length));
    if (used == 0)
        return false;
    if (c->count == MOST_CAPTURED) {
        fprintf(stderr, "bench: too many captured items\n");
        exit(2);
    }
    c->items[c->count++] = (struct item){octets, used};
    c->length += used;
    return true;
}

void read_captured(struct captured *c, char **files, int count)
{
    c->length = 0;
    c->count = 0;
    for (int i = 0; i < count; i++) {
        size_t end = read_file(c, files[i]);
        while (take_item(c, end)) {
        }
    }
    if (c->count == 0) {
        fprintf(stderr, "bench: no captured items\n");
        exit(2);
    }
}
