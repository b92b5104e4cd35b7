/* Keeps ports under the labels of runs: yesterday's ocean run is still open when today's is asked for its port. */
#include <stdio.h>
#include <stdlib.h>
#include <string.h>

#include "stomp.h"

/* All 0 is an empty registry. */
static uint8_t registry[STOMP_REGISTRY];

static const uint8_t *octets(const char *text)
{
    return (const uint8_t *)text;
}

/* Says what a call answered: 0 where it was done, else its number. */
static void say(const char *what, const char *run, uint64_t answer)
{
    if (stomp_registry_code(answer))
        printf("%s %s: refused with %u\n", what, run, stomp_registry_code(answer));
    else
        printf("%s %s\n", what, run);
}

static void open_run(const char *run)
{
    say("open", run, stomp_registry_open(registry, sizeof registry, octets(run), strlen(run)));
}

static void close_run(const char *run)
{
    say("close", run, stomp_registry_close(registry, sizeof registry, octets(run), strlen(run)));
}

/* Publishes the ocean's port. */
static void publish(const char *run, const char *text, uint64_t session)
{
    static const char destination[] = "ocean";
    say("publish in", run,
        stomp_registry_publish(registry, sizeof registry, octets(run), strlen(run), octets(destination),
                               strlen(destination), octets(text), strlen(text), session));
}

/* Asks for the ocean's port. Its text is a part of the registry, until the next call that changes it. */
static void ask(const char *run)
{
    static const char destination[] = "ocean";
    uint64_t answer = stomp_registry_ask(registry, sizeof registry, octets(run), strlen(run),
                                         octets(destination), strlen(destination));
    if (stomp_registry_code(answer))
        printf("ask %s: refused with %u\n", run, stomp_registry_code(answer));
    else if (stomp_registry_length(answer) == 0)
        printf("ask %s: no port\n", run);
    else
        printf("ask %s: %.*s\n", run, (int)stomp_registry_length(answer),
               (const char *)registry + stomp_registry_start(answer));
}

/* The daemon's numbers of sessions. */
enum { YESTERDAYS = 1, TODAYS = 2 };

int main(void)
{
    static const char yesterday[] = "ocean-0611", today[] = "ocean-0612";

    open_run(yesterday);
    publish(yesterday, "node7:40111", YESTERDAYS);

    /* Today's run has no port yet: it must not get yesterday's. */
    open_run(today);
    ask(today);
    ask(yesterday);

    publish(today, "node9:40200", TODAYS);
    ask(today);
    ask(yesterday);

    /* A port is its session's: another one cannot replace it, and it goes when that session ends. */
    publish(today, "node7:40112", YESTERDAYS);
    if (stomp_registry_end(registry, sizeof registry, TODAYS) != 0)
        return 1;
    printf("session %d ended\n", TODAYS);
    ask(today);
    publish(today, "node9:40201", 3);
    ask(today);

    close_run(yesterday);
    ask(yesterday);
    publish(yesterday, "node7:40111", YESTERDAYS);
    open_run(today);

    /* A registry that was damaged is refused, and stays as it is. */
    registry[STOMP_REGISTRY - 1] = 1;
    ask(today);
    return 0;
}
