/* A registry by hand: the same record and the same checks, with memcmp, memcpy and memset. */
#include <stdbool.h>
#include <string.h>

#include "../include/stomp.h"
#include "baseline.h"

/* A label or a destination with its length, and where a port's text, its session and a run's ports begin. */
enum {
    NAME = 1 + STOMP_REGISTRY_MAX_DESTINATION,
    TEXT_AT = NAME,
    SESSION_AT = TEXT_AT + 1 + STOMP_REGISTRY_MAX_TEXT,
    PORT = SESSION_AT + 8,
    PORTS_AT = NAME,
    RUN = PORTS_AT + STOMP_REGISTRY_PLACES * PORT
};

static const uint8_t zeros[RUN];

/* Whether a text that may have so many octets is laid out. */
static bool is_text(const uint8_t *field, size_t most)
{
    size_t length = field[0];
    return length > 0 && length <= most && memcmp(field + 1 + length, zeros, most - length) == 0;
}

/* Whether no two rows begin with the same name; free ones begin with 0. The names are laid out. */
static bool are_distinct(const uint8_t *rows, size_t count, size_t size)
{
    for (size_t i = 0; i < count; i++) {
        if (rows[i * size] == 0)
            continue;
        for (size_t j = i + 1; j < count; j++)
            if (memcmp(rows + i * size, rows + j * size, NAME) == 0)
                return false;
    }
    return true;
}

static bool is_port(const uint8_t *port)
{
    if (port[0] == 0)
        return memcmp(port, zeros, PORT) == 0;
    return is_text(port, STOMP_REGISTRY_MAX_DESTINATION) && is_text(port + TEXT_AT, STOMP_REGISTRY_MAX_TEXT);
}

static bool is_run(const uint8_t *run)
{
    if (run[0] == 0)
        return memcmp(run, zeros, RUN) == 0;
    if (!is_text(run, STOMP_REGISTRY_MAX_RUN))
        return false;
    for (size_t i = 0; i < STOMP_REGISTRY_PLACES; i++)
        if (!is_port(run + PORTS_AT + i * PORT))
            return false;
    return are_distinct(run + PORTS_AT, STOMP_REGISTRY_PLACES, PORT);
}

static bool is_valid(const uint8_t *registry, size_t length)
{
    if (length != STOMP_REGISTRY)
        return false;
    for (size_t i = 0; i < STOMP_REGISTRY_RUNS; i++)
        if (!is_run(registry + i * RUN))
            return false;
    return are_distinct(registry, STOMP_REGISTRY_RUNS, RUN);
}

static bool is_bad(size_t length, size_t most)
{
    return length == 0 || length > most;
}

/* The first row that begins with that name, or where there is none of length 0 the first that is free. */
static const uint8_t *find(const uint8_t *rows, size_t count, size_t size, const uint8_t *name, size_t length)
{
    for (const uint8_t *row = rows; row < rows + count * size; row += size)
        if (row[0] == length && (length == 0 || memcmp(row + 1, name, length) == 0))
            return row;
    return NULL;
}

static const uint8_t *find_run(const uint8_t *registry, const uint8_t *run, size_t length)
{
    return find(registry, STOMP_REGISTRY_RUNS, RUN, run, length);
}

static const uint8_t *find_port(const uint8_t *run, const uint8_t *destination, size_t length)
{
    return find(run + PORTS_AT, STOMP_REGISTRY_PLACES, PORT, destination, length);
}

/* A text with its length, and 0 after it. */
static void put_text(uint8_t *field, size_t most, const uint8_t *text, size_t length)
{
    field[0] = (uint8_t)length;
    memcpy(field + 1, text, length);
    memset(field + 1 + length, 0, most - length);
}

static void put_session(uint8_t octets[8], uint64_t session)
{
    for (int i = 0; i < 8; i++)
        octets[i] = (uint8_t)(session >> (56 - 8 * i));
}

uint64_t baseline_registry_open(uint8_t *registry, size_t registry_length, const uint8_t *run, size_t run_length)
{
    if (!is_valid(registry, registry_length))
        return STOMP_REGISTRY_INVALID;
    if (is_bad(run_length, STOMP_REGISTRY_MAX_RUN))
        return STOMP_REGISTRY_SIZE;
    if (find_run(registry, run, run_length))
        return STOMP_REGISTRY_ALREADY_OPEN;
    uint8_t *place = (uint8_t *)find_run(registry, NULL, 0);
    if (!place)
        return STOMP_REGISTRY_RUNS_TAKEN;
    put_text(place, STOMP_REGISTRY_MAX_RUN, run, run_length);
    return 0;
}

uint64_t baseline_registry_close(uint8_t *registry, size_t registry_length, const uint8_t *run, size_t run_length)
{
    if (!is_valid(registry, registry_length))
        return STOMP_REGISTRY_INVALID;
    if (is_bad(run_length, STOMP_REGISTRY_MAX_RUN))
        return STOMP_REGISTRY_SIZE;
    uint8_t *place = (uint8_t *)find_run(registry, run, run_length);
    if (!place)
        return STOMP_REGISTRY_NOT_OPEN;
    memset(place, 0, RUN);
    return 0;
}

uint64_t baseline_registry_publish(uint8_t *registry, size_t registry_length, const uint8_t *run,
                                   size_t run_length, const uint8_t *destination, size_t destination_length,
                                   const uint8_t *text, size_t text_length, uint64_t session)
{
    uint8_t octets[8];
    if (!is_valid(registry, registry_length))
        return STOMP_REGISTRY_INVALID;
    if (is_bad(run_length, STOMP_REGISTRY_MAX_RUN) ||
        is_bad(destination_length, STOMP_REGISTRY_MAX_DESTINATION) ||
        is_bad(text_length, STOMP_REGISTRY_MAX_TEXT))
        return STOMP_REGISTRY_SIZE;
    const uint8_t *open = find_run(registry, run, run_length);
    if (!open)
        return STOMP_REGISTRY_NOT_OPEN;
    put_session(octets, session);
    uint8_t *port = (uint8_t *)find_port(open, destination, destination_length);
    if (port && memcmp(port + SESSION_AT, octets, sizeof octets) != 0)
        return STOMP_REGISTRY_HELD;
    if (!port)
        port = (uint8_t *)find_port(open, NULL, 0);
    if (!port)
        return STOMP_REGISTRY_FULL;
    put_text(port, STOMP_REGISTRY_MAX_DESTINATION, destination, destination_length);
    put_text(port + TEXT_AT, STOMP_REGISTRY_MAX_TEXT, text, text_length);
    memcpy(port + SESSION_AT, octets, sizeof octets);
    return 0;
}

uint64_t baseline_registry_end(uint8_t *registry, size_t registry_length, uint64_t session)
{
    uint8_t octets[8];
    if (!is_valid(registry, registry_length))
        return STOMP_REGISTRY_INVALID;
    put_session(octets, session);
    for (size_t i = 0; i < STOMP_REGISTRY_RUNS; i++) {
        for (size_t j = 0; j < STOMP_REGISTRY_PLACES; j++) {
            uint8_t *port = registry + i * RUN + PORTS_AT + j * PORT;
            if (memcmp(port + SESSION_AT, octets, sizeof octets) == 0)
                memset(port, 0, PORT);
        }
    }
    return 0;
}

uint64_t baseline_registry_ask(const uint8_t *registry, size_t registry_length, const uint8_t *run,
                               size_t run_length, const uint8_t *destination, size_t destination_length)
{
    if (!is_valid(registry, registry_length))
        return STOMP_REGISTRY_INVALID;
    if (is_bad(run_length, STOMP_REGISTRY_MAX_RUN) ||
        is_bad(destination_length, STOMP_REGISTRY_MAX_DESTINATION))
        return STOMP_REGISTRY_SIZE;
    const uint8_t *open = find_run(registry, run, run_length);
    if (!open)
        return STOMP_REGISTRY_NOT_OPEN;
    const uint8_t *port = find_port(open, destination, destination_length);
    return port ? (uint64_t)port[TEXT_AT] << 16 | (uint64_t)(port + TEXT_AT + 1 - registry) : 0;
}
