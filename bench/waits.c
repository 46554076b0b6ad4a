/* waits.c - how long the reporter of `groundstation run` sleeps for the lock of its station, for bench/late_tables.
 *
 *   cc -O2 -shared -fPIC -o waits.so waits.c -ldl
 *   WAITS_FILE=F LD_PRELOAD=./waits.so groundstation run ..
 *
 * F has room for a `struct waits`. The reporter's sleep on futexes is summed from one of its steps to the next. A step is a
 * write or a pause, so a sum is how long a tick and the look after it waited.
 */
#define _GNU_SOURCE
#include <dlfcn.h>
#include <errno.h>
#include <fcntl.h>
#include <linux/futex.h>
#include <stdarg.h>
#include <stdint.h>
#include <stdlib.h>
#include <sys/mman.h>
#include <sys/syscall.h>
#include <time.h>
#include <unistd.h>

/* Times in nanoseconds. */
struct waits {
    int64_t steps, waited, longest, all;
};

static struct waits *waits;
static __thread int is_reporter;
static __thread int64_t sum;

__attribute__((constructor)) static void begin(void)
{
    const char *name = getenv("WAITS_FILE");
    int file = name ? open(name, O_RDWR) : -1;
    if (file < 0) return;
    void *room = mmap(NULL, sizeof *waits, PROT_READ | PROT_WRITE, MAP_SHARED, file, 0);
    if (room != MAP_FAILED) waits = room;
    close(file);
}

static void step(void)
{
    if (!waits || !is_reporter) return;
    waits->steps++;
    waits->waited += sum > 0;
    waits->all += sum;
    if (sum > waits->longest) waits->longest = sum;
    sum = 0;
}

static int64_t now(void)
{
    struct timespec t;
    clock_gettime(CLOCK_MONOTONIC, &t);
    return t.tv_sec * INT64_C(1000000000) + t.tv_nsec;
}

long syscall(long number, ...)
{
    static long (*real)(long, ...);
    if (!real) real = (long (*)(long, ...))dlsym(RTLD_NEXT, "syscall");
    va_list list;
    long a[6];
    va_start(list, number);
    for (int i = 0; i < 6; i++) a[i] = va_arg(list, long);
    va_end(list);
    int is_sleep = number == SYS_futex && (a[1] & FUTEX_CMD_MASK) != FUTEX_WAKE;
    /* The reporter pauses for at most 50 ms at a time. Its wait for the lock has no end time. Receivers sleep for the lock for
     * 0.1 ms at a time, which is not counted. */
    const struct timespec *longest = (const struct timespec *)a[3];
    int has_end = is_sleep && longest && longest->tv_sec == 0, is_wait = is_sleep && !has_end;
    int is_pause = has_end && longest->tv_nsec != 100000;
    is_reporter |= is_pause;
    if (is_pause) step();
    int64_t begun = is_wait ? now() : 0;
    long answer = real(number, a[0], a[1], a[2], a[3], a[4], a[5]);
    int fault = errno;
    if (is_wait) sum += now() - begun;
    errno = fault;
    return answer;
}

ssize_t write(int file, const void *bytes, size_t count)
{
    static ssize_t (*real)(int, const void *, size_t);
    if (!real) real = (ssize_t (*)(int, const void *, size_t))dlsym(RTLD_NEXT, "write");
    step();
    return real(file, bytes, count);
}
