/* The time of a frame call on a session whose places of ids are all taken, and in the last two cases those of
 * pending deliveries too. Each session is a program of its own, which makes as many calls as its first
 * argument says, of the case in its second. */
#define _DEFAULT_SOURCE

#include <stdbool.h>
#include <stdio.h>
#include <stdlib.h>
#include <string.h>
#include <sys/resource.h>
#include <sys/wait.h>
#include <unistd.h>

enum { OURS, BASELINE, BASELINE_MEMCMP, PROGRAMS };
enum { CASES = 6, ROUNDS = 8, WRITTEN = 64 };

/* The cases: how many calls a run makes, and what --check asks, the most ns of a call and the least ratio to
 * the baseline with memcmp. */
static const struct {
    const char *name;
    unsigned calls;
    double most_time;
    double least_ratio;
} cases[CASES] = {
    {"SEND, ids of 6", 200000, 3000, 0},         {"SUBSCRIBE, ids of 6", 200000, 3000, 0},
    {"SEND, ids of 32", 200000, 3000, 0},        {"SUBSCRIBE, ids of 32", 200000, 3000, 0},
    {"SEND, 64 labels of 6", 40000, 5000, 0.6},  {"SEND, 64 labels of 32", 40000, 5000, 0.6},
};

static void fail(const char *what, const char *program)
{
    fprintf(stderr, "bench: %s: %s\n", program, what);
    exit(1);
}

/* In the child: the program, with what it writes going to the pipe. */
static void become(const char *program, unsigned calls, unsigned which, int pipe_end)
{
    char calls_text[16], which_text[16];
    snprintf(calls_text, sizeof calls_text, "%u", calls);
    snprintf(which_text, sizeof which_text, "%u", which);
    dup2(pipe_end, STDOUT_FILENO);
    execl(program, program, calls_text, which_text, (char *)NULL);
    _exit(127);
}

static void read_all(int pipe_end, char text[WRITTEN])
{
    size_t length = 0;
    ssize_t got;
    while (length < WRITTEN - 1 && (got = read(pipe_end, text + length, WRITTEN - 1 - length)) > 0)
        length += (size_t)got;
    text[length] = 0;
}

/* The processor time of a run in seconds, and what it wrote. */
static double time_of(const char *program, unsigned calls, unsigned which, char text[WRITTEN])
{
    int ends[2], status;
    struct rusage used;
    fflush(stdout);
    if (pipe(ends) != 0)
        fail("no pipe", program);
    pid_t child = fork();
    if (child < 0)
        fail("no child", program);
    if (child == 0)
        become(program, calls, which, ends[1]);
    close(ends[1]);
    read_all(ends[0], text);
    close(ends[0]);
    if (wait4(child, &status, 0, &used) != child || status != 0)
        fail("did not end well", program);
    return (double)used.ru_utime.tv_sec + 1e-6 * (double)used.ru_utime.tv_usec +
           (double)used.ru_stime.tv_sec + 1e-6 * (double)used.ru_stime.tv_usec;
}

/* Whether all write that every call was accepted. */
static void check_answers(char *const programs[PROGRAMS])
{
    char text[WRITTEN], right[WRITTEN];
    for (unsigned which = 0; which < CASES; which++) {
        snprintf(right, sizeof right, "%u %u\n", cases[which].calls, cases[which].calls - 1);
        for (size_t p = 0; p < PROGRAMS; p++) {
            time_of(programs[p], cases[which].calls, which, text);
            if (strcmp(text, right) != 0)
                fail(text, programs[p]);
        }
    }
}

/* The ns of a call, as the best of the rounds. The programs take turns. */
static void measure(char *const programs[PROGRAMS], double best[CASES][PROGRAMS])
{
    char text[WRITTEN];
    for (unsigned round = 0; round < ROUNDS; round++) {
        for (unsigned which = 0; which < CASES; which++) {
            for (size_t turn = 0; turn < PROGRAMS; turn++) {
                size_t p = (round + turn) % PROGRAMS;
                double time = time_of(programs[p], cases[which].calls, which, text);
                double start = time_of(programs[p], 0, which, text);
                double per_call = 1e9 * (time - start) / cases[which].calls;
                if (round == 0 || per_call < best[which][p])
                    best[which][p] = per_call;
            }
        }
    }
}

/* Whether the case is as --check asks; says so where not. */
static bool is_good(size_t c, const double t[PROGRAMS])
{
    bool fast = t[OURS] < cases[c].most_time;
    bool near = t[BASELINE_MEMCMP] / t[OURS] >= cases[c].least_ratio;
    if (!fast)
        fprintf(stderr, "bench: %s: a call takes %.0f ns, not under %.0f\n", cases[c].name, t[OURS],
                cases[c].most_time);
    if (!near)
        fprintf(stderr, "bench: %s: the ratio to memcmp is %.2f, under %.2f\n", cases[c].name,
                t[BASELINE_MEMCMP] / t[OURS], cases[c].least_ratio);
    return fast && near;
}

static bool show(double best[CASES][PROGRAMS], bool check)
{
    bool good = true;
    printf("\nframe calls on a session with 16 subscriptions and 4 transactions, ns per call\n");
    printf("%-21s %9s %9s %9s %9s %9s\n", "call", "ours", "baseline", "ratio", "memcmp", "ratio");
    for (size_t c = 0; c < CASES; c++) {
        const double *t = best[c];
        printf("%-21s %9.0f %9.0f %9.2f %9.0f %9.2f\n", cases[c].name, t[OURS], t[BASELINE],
               t[BASELINE] / t[OURS], t[BASELINE_MEMCMP], t[BASELINE_MEMCMP] / t[OURS]);
        if (check && !is_good(c, t))
            good = false;
    }
    return good;
}

int main(int argc, char **argv)
{
    double best[CASES][PROGRAMS];
    bool check = argc > 1 && strcmp(argv[1], "--check") == 0;
    if (argc != 1 + check + PROGRAMS) {
        fprintf(stderr, "usage: session_time [--check] OURS BASELINE MEMCMP\n");
        return 2;
    }
    char *const *programs = argv + 1 + check;
    check_answers(programs);
    measure(programs, best);
    return show(best, check) ? 0 : 1;
}
