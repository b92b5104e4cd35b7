/* One pass of parse over the beginning of a stream, for callgrind, which counts what the named function does:
 * instructions STREAM stomp_parse|baseline_parse FILE.., with the number of a stream and the captured files.
 * Nothing else here calls these two. Writes the octets, the items and the name of what was passed. Without
 * arguments it writes how many streams there are. */
#include <stdio.h>
#include <stdlib.h>
#include <string.h>

#include "../include/stomp.h"
#include "baseline.h"
#include "calls.h"
#include "streams.h"

enum { PASSED = 300000 };

static parser *call_named(const char *name)
{
    if (strcmp(name, "stomp_parse") == 0)
        return stomp_parse;
    return strcmp(name, "baseline_parse") == 0 ? baseline_parse : NULL;
}

/* Item by item, each call being given all that is left. The second variant says what is due. */
static void pass(parser *parse, const struct stream *st)
{
    for (size_t at = 0; at < st->length;) {
        uint64_t due = baseline_parse_memchr(st->octets + at, st->length - at);
        if (parse(st->octets + at, st->length - at) != due || stomp_parse_used(due) == 0) {
            fprintf(stderr, "instructions: another answer at %zu of stream %s\n", at, st->name);
            exit(1);
        }
        at += stomp_parse_used(due);
    }
}

int main(int argc, char **argv)
{
    static struct captured captured;
    struct stream st;
    if (argc == 1) {
        printf("%d\n", STREAMS);
        return 0;
    }
    size_t number = argc > 3 ? strtoul(argv[1], NULL, 10) : 0;
    parser *parse = argc > 3 ? call_named(argv[2]) : NULL;
    if (number == 0 || number > STREAMS || !parse) {
        fprintf(stderr, "usage: instructions [STREAM stomp_parse|baseline_parse FILE..]\n");
        return 2;
    }
    read_captured(&captured, argv + 3, argc - 3);
    make_stream(&st, number - 1, PASSED, &captured);
    pass(parse, &st);
    printf("%zu %zu %s\n", st.length, st.items, st.name);
    free(st.octets);
    return 0;
}
