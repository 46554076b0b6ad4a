/* measure.c - what one command costs, as seen from a small parent, so that the peak is the command's own.
 *
 *   cc -O2 -o measure measure.c
 *   measure FILE CMD ARG..    run CMD with FILE as its input and no output; prints
 *                             wall ns, processor ns, peak kB, status
 */
#define _GNU_SOURCE
#include <fcntl.h>
#include <stdio.h>
#include <stdlib.h>
#include <sys/resource.h>
#include <sys/wait.h>
#include <time.h>
#include <unistd.h>

static int run(char **argv)
{
    struct timespec a, z;
    struct rusage u;
    int status;
    clock_gettime(CLOCK_MONOTONIC, &a);
    pid_t p = fork();
    if (p < 0) return 1;
    if (!p) {
        int in = open(argv[0], O_RDONLY), out = open("/dev/null", O_WRONLY);
        if (in < 0 || out < 0) _exit(126);
        dup2(in, 0), dup2(out, 1), dup2(out, 2);
        execvp(argv[1], argv + 1);
        _exit(127);
    }
    if (wait4(p, &status, 0, &u) != p) return 1;
    clock_gettime(CLOCK_MONOTONIC, &z);
    printf("%.0f %.0f %ld %d\n", (z.tv_sec - a.tv_sec) * 1e9 + (z.tv_nsec - a.tv_nsec),
           (u.ru_utime.tv_sec + u.ru_stime.tv_sec) * 1e9 + (u.ru_utime.tv_usec + u.ru_stime.tv_usec) * 1e3, u.ru_maxrss,
           WIFEXITED(status) ? WEXITSTATUS(status) : 128 + WTERMSIG(status));
    return 0;
}

int main(int argc, char **argv)
{
    if (argc >= 3) return run(argv + 1);
    fprintf(stderr, "usage: measure FILE CMD ARG..\n");
    return 2;
}
