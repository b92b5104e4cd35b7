/* Calls of decode and encode that are written down, and calls of encode made from a seed. */
#ifndef BLOCKS_H
#define BLOCKS_H

void check_blocks(void);

#endif
