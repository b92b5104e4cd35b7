/* Writes inputs of fuzz.c made of streams: seeds DIRECTORY STREAM.. Each stream is fed in pieces, in some
 * ways. For each item one input that parses; for each frame also ones that decode it, encode what it
 * holds, with the options and without, and find its first two names and one that it does not have. They
 * are read with the baseline. A block is there as it is and as the text that fuzz.c makes it of. All of it but
 * the blocks to search is there in version 1.1 too, and in pieces with the version told between them. Then
 * items of version 1.1, entries that are not UTF-8, some names and patterns to match, plans, and calls of a
 * registry. */
#include <stdio.h>
#include <stdlib.h>
#include <string.h>

#include "../../bench/baseline.h"
#include "../../include/stomp.h"

enum { HEAD = 6, STREAM = 1 << 18, LONGEST_INPUT = 66000 };
enum { PARSE, DECODE, ENCODE, FIND, PAGE_BEHIND = 4, AS_TEXT = 8, IN_PIECES = 8, MATCHED = 8 };
enum { PLANNED = 16, AS_RECORDS = 32, REGISTERED = 16, WITH_OPTIONS = 64, TOLD = 16 };
enum { NAME_END = 254, ENTRY_END = 255 };

static const char *directory;
static unsigned long count;

/* The input that is being made. */
static uint8_t made[STREAM + 64];
static size_t length;

static void put(const void *octets, size_t n)
{
    memcpy(made + length, octets, n);
    length += n;
}

static void put_number(size_t n, size_t octets)
{
    while (octets-- > 0)
        made[length++] = (uint8_t)(n >> 8 * octets);
}

/* The page is in turn behind and before our slices. */
static void begin(unsigned call)
{
    length = 0;
    put_number(call | (count & 1 ? PAGE_BEHIND : 0), 1);
}

static void finish(void)
{
    char path[4096];
    FILE *file;
    snprintf(path, sizeof path, "%s/%06lu", directory, count++);
    file = fopen(path, "wb");
    if (!file || fwrite(made, 1, length, file) != length || fclose(file) != 0) {
        perror(path);
        exit(2);
    }
}

static size_t number_at(const uint8_t *octets)
{
    return (size_t)octets[0] << 8 | octets[1];
}

/* Writes what is made so far with the block behind it: as it is, then as text. */
static void finish_with(const uint8_t *block, size_t used)
{
    size_t before = length;
    put(block, used);
    finish();
    length = before;
    made[0] |= AS_TEXT;
    for (size_t at = 0; at < used;) {
        size_t name = number_at(block + at + 2);
        size_t value = number_at(block + at + 4);
        put(block + at + HEAD, name);
        put_number(NAME_END, 1);
        put(block + at + HEAD + name, value);
        put_number(ENTRY_END, 1);
        at += HEAD + name + value;
    }
    finish();
}

static void write_find(const void *name, size_t name_length, const uint8_t *block, size_t used)
{
    begin(FIND);
    put_number(name_length, 2);
    put(name, name_length);
    finish_with(block, used);
}

/* Octets that are parsed, with the options. */
static void write_parse(uint32_t options, const void *octets, size_t size)
{
    begin(PARSE | WITH_OPTIONS);
    put_number(options, 4);
    put(octets, size);
    finish();
}

/* A frame that is decoded, with the options. */
static void write_decode(uint32_t options, const void *frame, size_t size)
{
    begin(DECODE | WITH_OPTIONS);
    put_number(options, 4);
    put_number(STOMP_MAX_BLOCK, 2);
    put(frame, size);
    finish();
}

static void write_frame(const uint8_t *frame, uint64_t parsed)
{
    static uint8_t block[STOMP_MAX_BLOCK];
    size_t used = stomp_length(baseline_decode(frame, stomp_parse_used(parsed), block, sizeof block));
    size_t at = 0;
    begin(DECODE);
    put_number(sizeof block, 2);
    put(frame, stomp_parse_used(parsed));
    finish();
    write_decode(STOMP_1_1, frame, stomp_parse_used(parsed));
    for (unsigned options = 0; options <= (STOMP_COUNTED | STOMP_1_1); options++) {
        begin(ENCODE);
        put_number(options, 4);
        put_number(stomp_parse_command(parsed), 4);
        put_number(STOMP_MAX_FRAME, 2);
        put_number(stomp_parse_body_length(parsed), 2);
        put(frame + stomp_parse_body(parsed), stomp_parse_body_length(parsed));
        finish_with(block, used);
    }
    for (int i = 0; i < 2 && at < used; i++) {
        size_t name = number_at(block + at + 2);
        write_find(block + at + HEAD, name, block, used);
        at += HEAD + name + number_at(block + at + 4);
    }
    write_find("none", 4, block, used);
}

/* Entries that no frame has: a cut character, one that is half in the name and half in the value, a tail, a
 * surrogate. */
static void write_broken(void)
{
    static const char *const entries[][2] = {
        {"a", "b\xc3"}, {"a\xc3", "\xa9z"}, {"\x80", ""}, {"a", "\xed\xa0\x80"}
    };
    for (size_t i = 0; i < sizeof entries / sizeof *entries; i++) {
        uint8_t block[40] = "HD";
        size_t name = strlen(entries[i][0]);
        size_t value = strlen(entries[i][1]);
        block[3] = (uint8_t)name;
        block[5] = (uint8_t)value;
        memcpy(block + HEAD, entries[i][0], name);
        memcpy(block + HEAD + name, entries[i][1], value);
        begin(ENCODE);
        put_number(0, 4);
        put_number(STOMP_COMMAND_SEND, 4);
        put_number(STOMP_MAX_FRAME, 2);
        put_number(0, 2);
        finish_with(block, HEAD + name + value);
    }
}

/* Items of version 1.1, and octets that are none: 13 in names and values, at each place where 1.2 has a line
 * end, after a backslash, and the letter r there. They are parsed, decoded, and fed after a heart-beat. */
static void write_1_1(void)
{
    static const char *const items[] = {
        "\r\n", "\n", "ACK\r\n", "ACK\n\r\n\n", "ACK\nid\r\n", "ACK\n\r:\r\n\n", "ACK\nid:a\r\n\n",
        "ACK\nid:a\\r\n\n", "ACK\nid:\\\\r\n\n", "ACK\nid:\\\r\n\n", "ACK\nid:\\n\\c\\\\\n\n",
        "SEND\ncontent-length:1\r\n\na", "SEND\ncontent-length:1\n\n\r", "SEND\ncontent-length\r:1\n\na",
        "SEND\ndestination:/p\r\n\nok\r", "CONNECT\npasscode:a:\r\n\n", "CONNECT\nlogin:\\r\n\n",
        "CONNECTED\r\nversion:1.1\r\n\r\n", "ACK\nid:\xc3\r\n\n", "ACK\nsubscription:0\nmessage-id:7\n\n"
    };
    for (size_t i = 0; i < sizeof items / sizeof *items; i++) {
        size_t size = strlen(items[i]) + 1;
        for (uint32_t options = 0; options <= STOMP_1_1; options += STOMP_1_1) {
            write_parse(options, items[i], size);
            write_decode(options, items[i], size);
            begin(PARSE | IN_PIECES);
            put_number(0, 1);
            put_number(TOLD | 1, 1);
            put_number(1, 1);
            put_number(options, 1);
            put("\n", 1);
            put(items[i], size);
            put(items[i], size);
            finish();
        }
    }
}

/* The stream in pieces: one octet each, some of none, and longer ones; then with versions told. */
static void write_feeds(const uint8_t *stream, size_t size)
{
    static const char *const tellings[] = {"\1\1\2", "\4\1\0\7\2\2\0\2\0", "\2\0\144\2\2", "\2\377\1\0\2"};
    static const char *const lengths[] = {"\1\1", "\4\1\0\7\2", "\2\0\144", "\1\377"};
    for (size_t i = 0; i < sizeof lengths / sizeof *lengths; i++) {
        begin(PARSE | IN_PIECES);
        put_number(0, 1);
        put(lengths[i], 1 + (size_t)lengths[i][0]);
        put(stream, size < LONGEST_INPUT - length ? size : LONGEST_INPUT - length);
        finish();
    }
    for (size_t i = 0; i < sizeof tellings / sizeof *tellings; i++) {
        size_t pieces = (size_t)tellings[i][0];
        begin(PARSE | IN_PIECES);
        put_number(0, 1);
        put_number(TOLD | pieces, 1);
        put(tellings[i] + 1, 2 * pieces);
        put(stream, size < LONGEST_INPUT - length ? size : LONGEST_INPUT - length);
        finish();
    }
}

/* Each name with each pattern, and both as many words as may be, and one more. */
static void write_matches(void)
{
    static const char *const texts[] = {"a",   "*",   "#",     "a.b", "a.#",   "#.a",    "#.a.#",
                                        "*.b", "a..", "a.*.c", "a*",  "a.b.c", "a.#.b.#"};
    static char words[2 * (STOMP_MATCH_MAX_WORDS + 1)];
    enum { TEXTS = sizeof texts / sizeof *texts };
    for (size_t i = 0; i < TEXTS; i++) {
        for (size_t j = 0; j < TEXTS; j++) {
            begin(DECODE | MATCHED);
            put_number(strlen(texts[j]), 2);
            put(texts[j], strlen(texts[j]));
            put(texts[i], strlen(texts[i]));
            finish();
        }
    }
    for (size_t i = 0; i < sizeof words; i++)
        words[i] = i % 2 ? '.' : 'a';
    for (size_t count = STOMP_MATCH_MAX_WORDS; count <= STOMP_MATCH_MAX_WORDS + 1; count++) {
        begin(DECODE | MATCHED);
        put_number(2 * count - 1, 2);
        put(words, 2 * count - 1);
        put(words, 2 * STOMP_MATCH_MAX_WORDS - 1);
        finish();
    }
}

/* Plans as the texts that plan.c makes records of: one that is accepted, each number, and as many pairs as
 * may be and one more. */
static void write_plan(const char *messages, const char *subscriptions, const char *plan, size_t plan_length)
{
    begin(DECODE | MATCHED | PLANNED | AS_RECORDS);
    put_number(strlen(messages), 2);
    put(messages, strlen(messages));
    put_number(strlen(subscriptions), 2);
    put(subscriptions, strlen(subscriptions));
    put(plan, plan_length);
    finish();
}

static void write_plans(void)
{
    static const char two[] = "1a\3772b.c", live[] = "8\2#\3779\1*.c";
    static const char *const plans[] = {"1829", "2918", "1828", "3829", "1818", "1929", "2939", "18", ""};
    static char messages[3 * (STOMP_PLAN_MAX_PAIRS + 1)], pairs[2 * (STOMP_PLAN_MAX_PAIRS + 1)];
    for (size_t i = 0; i < sizeof plans / sizeof *plans; i++)
        write_plan(two, live, plans[i], strlen(plans[i]));
    write_plan(two, "8\1#", "1828", 4);
    write_plan("1a\3771b", live, "18", 2);
    write_plan("1a.", live, "18", 2);
    write_plan(two, "8\2", "18", 2);
    for (size_t i = 0; i <= STOMP_PLAN_MAX_PAIRS; i++) {
        memcpy(messages + 3 * i, "\1a\377", 3);
        messages[3 * i] = (char)(1 + i);
        pairs[2 * i] = (char)(1 + i);
        pairs[2 * i + 1] = '8';
    }
    messages[sizeof messages - 1] = 0;
    write_plan(messages, "8\177a", pairs, sizeof pairs);
    write_plan(messages, "8\177a", pairs, sizeof pairs - 2);
    messages[sizeof messages - 4] = 0;
    write_plan(messages, "8\177a", pairs, sizeof pairs - 2);
}

/* Calls of a registry, as registry.c has them: 0 open, 1 close, 2 publish, 3 ask, 4 end, 5 change. */
static void put_text(const char *text)
{
    put_number(strlen(text), 1);
    put(text, strlen(text));
}

static void open_run(const char *run)
{
    put_number(0, 1);
    put_text(run);
}

static void publish(const char *run, const char *destination, const char *text, unsigned session)
{
    put_number(2, 1);
    put_text(run);
    put_text(destination);
    put_text(text);
    put_number(session, 1);
}

static void ask(const char *run, const char *destination)
{
    put_number(3, 1);
    put_text(run);
    put_text(destination);
}

/* So many times 'a', with the highest bit. */
static void put_long(size_t length)
{
    put_number(128 + length, 1);
    put_number('a', 1);
}

/* Yesterday's run is still open when today's is asked for its port. */
static void write_wrong_port(void)
{
    begin(FIND | REGISTERED);
    open_run("ocean-0611");
    publish("ocean-0611", "ocean", "node7:40111", 1);
    open_run("ocean-0612");
    ask("ocean-0612", "ocean");
    publish("ocean-0612", "ocean", "node9:40200", 255);
    ask("ocean-0612", "ocean");
    put("\4\377", 2);
    ask("ocean-0612", "ocean");
    put("\1\12ocean-0611", 12);
    ask("ocean-0611", "ocean");
    finish();
}

/* All places taken and one more, of ports and of runs. */
static void write_full(void)
{
    char name[2] = "1";
    begin(FIND | REGISTERED);
    for (name[0] = '1'; name[0] < '6'; name[0]++)
        open_run(name);
    open_run("1");
    for (name[0] = '1'; name[0] <= '9'; name[0]++)
        publish("1", name, "p", (unsigned)name[0]);
    publish("1", "1", "q", 0);
    publish("6", "1", "q", 0);
    put("\4" "2", 2);
    publish("1", "9", "p", 9);
    finish();
}

/* The longest texts, or one octet more in one of them; then an octet changed, at some place, and a session's
 * end. */
static void write_long(size_t run, size_t destination, size_t text, size_t at, unsigned octet)
{
    begin(FIND | REGISTERED);
    put_number(0, 1);
    put_long(STOMP_REGISTRY_MAX_RUN);
    put_number(2, 1);
    put_long(run);
    put_long(destination);
    put_long(text);
    put_number(7, 1);
    put_number(5, 1);
    put_number(at, 2);
    put_number(octet, at < STOMP_REGISTRY ? 1 : 0);
    put("\4\7", 2);
    finish();
}

/* Two runs, in the first two ports; then the octet that makes their labels, or their destinations, equal, and a
 * question. */
static void write_equal(size_t at, unsigned octet)
{
    begin(FIND | REGISTERED);
    open_run("a");
    open_run("b");
    publish("a", "a", "p", 1);
    publish("a", "b", "p", 1);
    put_number(5, 1);
    put_number(at, 2);
    put_number(octet, 1);
    ask("a", "a");
    finish();
}

static void write_registries(void)
{
    static const size_t places[] = {0, 1, 33, 66, 131, 139, 880, 881, STOMP_REGISTRY - 1, STOMP_REGISTRY};
    write_wrong_port();
    write_full();
    write_equal(1, 'b');
    write_equal(34, 'b');
    for (size_t more = 0; more < 4; more++)
        write_long(32 + (more == 1), 32 + (more == 2), 64 + (more == 3), 139, 0);
    for (size_t i = 0; i < sizeof places / sizeof *places; i++) {
        write_long(32, 32, 64, places[i], 0);
        write_long(32, 32, 64, places[i], 'b');
    }
}

int main(int argc, char **argv)
{
    static uint8_t stream[STREAM];
    if (argc < 3)
        return 2;
    directory = argv[1];
    for (int i = 2; i < argc; i++) {
        FILE *file = fopen(argv[i], "rb");
        if (!file) {
            perror(argv[i]);
            return 2;
        }
        size_t size = fread(stream, 1, sizeof stream, file);
        size_t used = 1;
        fclose(file);
        write_feeds(stream, size);
        for (size_t at = 0; at < size && used > 0; at += used) {
            uint64_t parsed = baseline_parse(stream + at, size - at);
            used = stomp_parse_used(parsed);
            begin(PARSE);
            put(stream + at, used ? used : size - at);
            finish();
            write_parse(STOMP_1_1, stream + at, used ? used : size - at);
            if (stomp_parse_kind(parsed) == STOMP_FRAME)
                write_frame(stream + at, parsed);
        }
    }
    write_1_1();
    write_broken();
    write_matches();
    write_plans();
    write_registries();
    printf("%lu seeds\n", count);
    return 0;
}
