/* Reads a stream from a socket in small pieces, as a server does: each item is printed when it is whole. */
#define _POSIX_C_SOURCE 200809L

#include <stdio.h>
#include <stdlib.h>
#include <string.h>
#include <sys/socket.h>
#include <sys/wait.h>
#include <unistd.h>

#include "stomp.h"

/* What the other side writes, piece by piece: cut between 13 and 10, in a command, in an escape, in
 * content-length, in a body that holds octet 0. After the last frame stands a word that is no command. */
#define PIECE(text) {text, sizeof text - 1}
static const struct {
    const char *octets;
    size_t length;
} pieces[] = {
    PIECE("\r"),
    PIECE("\nCONN"),
    PIECE("ECT\naccept-version:1.2\nhost:ocean\n\n\0\n\nSEND\ndestination:/ports/ice\nport:tcp\\"),
    PIECE("cocean-2\\c4711\ncontent-le"),
    PIECE("ngth:"),
    PIECE("9\n\ntemp"),
    PIECE("\0salt\0DISCONNECT\n\n"),
    PIECE("\0SENT\n"),
};

/* How many octets are read at a time. A server reads more. */
enum { READ = 6 };

static void stop(const char *what)
{
    perror(what);
    exit(1);
}

/* Prints what can be printed, and the number of any other octet. */
static void print_octets(const uint8_t *octets, size_t length)
{
    for (size_t i = 0; i < length; i++) {
        if (octets[i] == '\n' || (octets[i] >= ' ' && octets[i] <= '~'))
            putchar(octets[i]);
        else
            printf("<%u>", octets[i]);
    }
    putchar('\n');
}

/* The other side: one write for each piece. */
static void write_pieces(int to)
{
    for (size_t i = 0; i < sizeof pieces / sizeof *pieces; i++)
        if (write(to, pieces[i].octets, pieces[i].length) != (ssize_t)pieces[i].length)
            stop("write");
}

/* Prints what a call found. It stands at the buffer's front. */
static void print_answer(uint64_t answer, const uint8_t *buffer)
{
    switch (stomp_feed_kind(answer)) {
    case STOMP_HEART_BEAT:
        printf("a heart-beat of %zu octets\n", stomp_feed_used(answer));
        break;
    case STOMP_FRAME:
        printf("a frame of %zu octets: command %u, %zu headers, a body of %zu octets at %zu\n",
               stomp_feed_used(answer), (unsigned)stomp_feed_command(answer), stomp_feed_headers(answer),
               stomp_feed_body_length(answer), stomp_feed_body(answer));
        print_octets(buffer, stomp_feed_used(answer));
        break;
    case STOMP_INVALID:
        printf("refused with %u at %zu, after these octets of the item:\n", stomp_feed_code(answer),
               stomp_feed_offset(answer));
        print_octets(buffer, stomp_feed_offset(answer));
        break;
    default:
        break;
    }
}

/* This side: small pieces as they arrive, up to the stream's end or what is refused. */
static void read_stream(int from)
{
    static uint8_t buffer[STOMP_FEED_BUFFER];
    uint8_t state[STOMP_FEED_STATE] = {0};
    uint8_t piece[READ];
    for (;;) {
        ssize_t got = read(from, piece, sizeof piece);
        if (got < 0)
            stop("read");
        if (got == 0)
            return;
        /* A piece may have the end of an item and the next one: what is left of it is handed in again. */
        size_t taken = 0;
        for (;;) {
            uint64_t answer = stomp_feed(state, sizeof state, buffer, sizeof buffer, piece + taken,
                                         (size_t)got - taken);
            taken += stomp_feed_taken(answer);
            if (stomp_feed_kind(answer) == STOMP_INCOMPLETE)
                break;
            print_answer(answer, buffer);
            if (stomp_feed_kind(answer) == STOMP_INVALID) {
                /* From here on every call says so again. A server closes the connection. */
                answer = stomp_feed(state, sizeof state, buffer, sizeof buffer, (const uint8_t *)"\n", 1);
                printf("refused again with %u at %zu, %zu octets taken\n", stomp_feed_code(answer),
                       stomp_feed_offset(answer), stomp_feed_taken(answer));
                return;
            }
        }
    }
}

int main(void)
{
    static uint8_t buffer[STOMP_FEED_BUFFER - 1];
    uint8_t state[STOMP_FEED_STATE] = {0};
    int ends[2];
    if (socketpair(AF_UNIX, SOCK_STREAM, 0, ends) != 0)
        stop("socketpair");
    pid_t child = fork();
    if (child < 0)
        stop("fork");
    if (child == 0) {
        close(ends[0]);
        write_pieces(ends[1]);
        _exit(0);
    }
    close(ends[1]);
    read_stream(ends[0]);
    close(ends[0]);
    if (waitpid(child, NULL, 0) != child)
        stop("waitpid");

    /* What a mistake of the caller looks like: a short buffer, and a state that was not handed back whole. */
    uint64_t answer = stomp_feed(state, sizeof state, buffer, sizeof buffer, (const uint8_t *)"\n", 1);
    printf("a short buffer is refused with %u\n", stomp_feed_code(answer));
    static uint8_t enough[STOMP_FEED_BUFFER];
    answer = stomp_feed(state, sizeof state - 1, enough, sizeof enough, (const uint8_t *)"\n", 1);
    printf("a short state is refused with %u\n", stomp_feed_code(answer));
    return 0;
}
