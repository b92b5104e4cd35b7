/* Buffers that end where no memory is, and octets shown to a reader. */
#define _DEFAULT_SOURCE

#include "guard.h"

#include <signal.h>
#include <stdio.h>
#include <stdlib.h>
#include <string.h>
#include <sys/mman.h>
#include <unistd.h>

enum { SHOWN = 600 };

static void out_of_bounds(int number)
{
    static const char text[] = "bench: a call read or wrote past the end of a slice, or crashed\n";
    ssize_t written = write(STDERR_FILENO, text, sizeof text - 1);
    (void)number;
    (void)written;
    _exit(1);
}

uint8_t *guarded_end(void)
{
    size_t page = (size_t)sysconf(_SC_PAGESIZE);
    uint8_t *room = mmap(NULL, ROOM + page, PROT_READ | PROT_WRITE, MAP_PRIVATE | MAP_ANONYMOUS, -1, 0);
    if (room == MAP_FAILED || ROOM % page != 0 || mprotect(room + ROOM, page, PROT_NONE) != 0) {
        fprintf(stderr, "bench: no guarded memory\n");
        exit(2);
    }
    signal(SIGSEGV, out_of_bounds);
    signal(SIGBUS, out_of_bounds);
    return room + ROOM;
}

const uint8_t *at_end(uint8_t *end, const uint8_t *octets, size_t length)
{
    return memcpy(end - length, octets, length);
}

void show_octets(const char *what, const uint8_t *octets, size_t length)
{
    fprintf(stderr, "  %s, %zu octets: ", what, length);
    for (size_t i = 0; i < length; i++) {
        if (length > SHOWN && i == SHOWN / 2) {
            fprintf(stderr, " .. ");
            i = length - SHOWN / 2;
        }
        if (octets[i] >= ' ' && octets[i] <= '~' && octets[i] != '\\')
            fputc(octets[i], stderr);
        else
            fprintf(stderr, "\\%03o", octets[i]);
    }
    fputc('\n', stderr);
}
