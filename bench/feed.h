/* The stream parser, measured. */
#ifndef FEED_H
#define FEED_H

#include <stdbool.h>

#include "streams.h"

/* Compares a stream in pieces with the same stream parsed item by item, then measures both and prints a
 * table: of these streams, and of the captured items laid end to end. Ends the program with status 1
 * where they differ. With `check` whether all is as fast as --check asks; says so where it is not. */
bool measure_feed(const struct stream streams[STREAMS], const struct captured *captured, bool check);

#endif
