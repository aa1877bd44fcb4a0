/* Measures the listing program: PROGRAM FILE NAME. Starts it on the file many times and prints the name, the nanoseconds of the shortest
   run from start to end, and the bytes that it wrote. */
#define _POSIX_C_SOURCE 200809L
#include <fcntl.h>
#include <stdio.h>
#include <stdlib.h>
#include <sys/wait.h>
#include <time.h>
#include <unistd.h>

enum { RUNS = 300 };

static void must(int holds, const char *what)
{
    if (!holds) {
        perror(what);
        exit(1);
    }
}

static double now(void)
{
    struct timespec t;
    clock_gettime(CLOCK_MONOTONIC, &t);
    return (double)t.tv_sec * 1e9 + (double)t.tv_nsec;
}

/* In the new process: the file on standard input, the pipe on standard output. */
static void become(const char *program, const char *file, int out)
{
    int in = open(file, O_RDONLY);
    must(in >= 0 && dup2(in, 0) == 0 && dup2(out, 1) == 1, file);
    execl(program, program, (char *)NULL);
    must(0, program);
}

/* Runs the program once; how many bytes it wrote. */
static long run(const char *program, const char *file)
{
    int ends[2];
    must(pipe(ends) == 0, "pipe");
    pid_t child = fork();
    must(child >= 0, "fork");
    if (child == 0) {
        become(program, file, ends[1]);
    }
    close(ends[1]);
    char bytes[4096];
    long written = 0;
    for (ssize_t n; (n = read(ends[0], bytes, sizeof bytes)) > 0;) {
        written += n;
    }
    close(ends[0]);
    int status;
    must(waitpid(child, &status, 0) == child && status == 0, program);
    return written;
}

int main(int count, char **arguments)
{
    must(count == 4, "usage: programs PROGRAM FILE NAME");
    long written = run(arguments[1], arguments[2]);
    double shortest = 1e18;
    for (int i = 0; i < RUNS; i++) {
        double start = now();
        must(run(arguments[1], arguments[2]) == written, "another output");
        double spent = now() - start;
        if (spent < shortest) {
            shortest = spent;
        }
    }
    printf("%s %.1f %ld\n", arguments[3], shortest, written);
    return 0;
}
