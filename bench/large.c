// Runs a program on a file and says how long it took and how much of it was in memory at most: large PROGRAM FILE.
// What the program writes is thrown away. Ends with status 1 where it failed, 2 where it could not be run.
#define _DEFAULT_SOURCE

#include <fcntl.h>
#include <stdio.h>
#include <sys/resource.h>
#include <sys/stat.h>
#include <sys/wait.h>
#include <time.h>
#include <unistd.h>

static double now(void)
{
    struct timespec t;
    clock_gettime(CLOCK_MONOTONIC, &t);
    return (double)t.tv_sec + (double)t.tv_nsec / 1e9;
}

static int run(const char *program, const char *file)
{
    int in = open(file, O_RDONLY);
    int out = open("/dev/null", O_WRONLY);
    if (in < 0 || out < 0 || dup2(in, 0) < 0 || dup2(out, 1) < 0)
        return 127;
    execl(program, program, (char *)NULL);
    return 127;
}

int main(int argc, char **argv)
{
    struct stat file;
    struct rusage used;
    int status = 0;
    if (argc != 3 || stat(argv[2], &file) != 0) {
        fputs("usage: large PROGRAM FILE\n", stderr);
        return 2;
    }
    double start = now();
    pid_t child = fork();
    if (child == 0)
        _exit(run(argv[1], argv[2]));
    if (child < 0 || wait4(child, &status, 0, &used) < 0 || !WIFEXITED(status) || WEXITSTATUS(status) == 127) {
        fprintf(stderr, "large: %s could not be run\n", argv[1]);
        return 2;
    }
    double seconds = now() - start;
    printf("%lld octets in %.2f s, %.2f ns per octet, at most %ld KiB in memory\n", (long long)file.st_size, seconds,
           seconds * 1e9 / (double)file.st_size, used.ru_maxrss);
    return WEXITSTATUS(status) == 0 ? 0 : 1;
}
