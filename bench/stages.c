/* stages.c - what the parts of a line cost `baseline.c`.
 *
 *   cc -O2 -o stages stages.c -lm
 *   stages FILE [ROUNDS]     ns of a line of FILE, in memory, up to each stage, and beside all of it:
 *                            medians of interleaved rounds, default 31
 *
 * Each stage takes the lines one step further than the one before. The second checks nothing but digits,
 * and has a table of parity for each place of a byte, as `modes_frame` has.
 */
#define main baseline_main
#include "baseline.c"
#undef main
#include <time.h>

static const u8 *DATA;
static size_t SIZE;
static u32 PLACE14[11][256], PLACE7[4][256]; /* the remainder that a byte at this place alone leaves */

static void places(void)
{
    for (int p = 0; p < 11; p++)
        for (u32 i = 0; i < 256; i++) {
            u8 f[14] = {0};
            f[p] = i;
            PLACE14[p][i] = remainder_of(f, 14);
            if (p < 4) PLACE7[p][i] = remainder_of(f, 7);
        }
}
static inline u32 remainder_by_place(const u8 *f, int len)
{
    u32 c = f[len - 3] << 16 | f[len - 2] << 8 | f[len - 1];
    if (len == 14) for (int i = 0; i < 11; i++) c ^= PLACE14[i][f[i]];
    else for (int i = 0; i < 4; i++) c ^= PLACE7[i][f[i]];
    return c;
}
/* The bytes of a line's digits, 0 where one is no digit. Nothing else is checked. */
static inline int digits(const u8 *p, size_t n, u8 *f)
{
    int k = n < 30 ? ((int)n - 2) / 2 : 14, bad = 0;
    p++;
    for (int i = 0; i < k; i++) {
        int h = HEX[p[2 * i]], l = HEX[p[2 * i + 1]];
        bad |= h | l;
        f[i] = h << 4 | l;
    }
    return bad < 0 ? 0 : k;
}

#define EACH_LINE(body) do { const u8 *p = DATA, *end = DATA + SIZE; while (p < end) { \
    const u8 *q = memchr(p, '\n', end - p); size_t n = (q ? q : end) - p; body; p += n + 1; } } while (0)

static u64 line_ends(void) { u64 x = 0; EACH_LINE({ x++; }); return x; }
static u64 with_parity(void)
{
    u64 x = 0; u8 f[14];
    EACH_LINE({ int k = digits(p, n, f); if (k == 7 || k == 14) x += remainder_by_place(f, k); });
    return x;
}
static u64 with_claims(void)
{
    u64 x = 0; u8 f[14]; int len, over;
    EACH_LINE({ if (read_line(p, n, f, &len) == FRAME) x += claim(f, len, &over); });
    return x;
}
static u64 with_fields(void)
{
    u64 x = 0; u8 f[14]; int len, over; Fields d;
    EACH_LINE({ if (read_line(p, n, f, &len) == FRAME) { x += claim(f, len, &over); fields(f, &d); x += d.alt + d.call[0] + d.v0 + d.y; } });
    return x;
}
static u64 with_table(void) { reset(); T_ACC = 0; EACH_LINE({ one(p, n, stderr); }); return T_ACC; }

static const struct { const char *name; u64 (*take)(void); } STAGES[] = {
    {"line ends", line_ends}, {"digits and parity too", with_parity}, {"line checks and claim too", with_claims},
    {"fields too", with_fields}, {"the table too: all", with_table}};
enum { STAGE_COUNT = sizeof STAGES / sizeof *STAGES };

static int by_value(const void *a, const void *b) { double x = *(double *)a, y = *(double *)b; return (x > y) - (x < y); }

static int stages(const char *path, int rounds)
{
    FILE *file = fopen(path, "rb");
    if (!file || fseek(file, 0, SEEK_END)) { perror(path); return 1; }
    SIZE = ftell(file);
    rewind(file);
    u8 *data = malloc(SIZE + 1);
    if (rounds < 1 || !data || fread(data, 1, SIZE, file) != SIZE) return 1;
    fclose(file);
    DATA = data;
    places();
    static volatile u64 taken; /* so that each stage is computed */
    u64 lines = line_ends();
    double (*ns)[STAGE_COUNT] = malloc(sizeof(double[STAGE_COUNT]) * rounds), *sorted = malloc(sizeof(double) * rounds);
    if (!lines || !ns || !sorted) return 1;
    for (int r = -1; r < rounds; r++) /* round -1 warms up */
        for (int i = 0; i < STAGE_COUNT; i++) {
            struct timespec a, z;
            clock_gettime(CLOCK_MONOTONIC, &a);
            taken += STAGES[i].take();
            clock_gettime(CLOCK_MONOTONIC, &z);
            if (r >= 0) ns[r][i] = ((z.tv_sec - a.tv_sec) * 1e9 + (z.tv_nsec - a.tv_nsec)) / lines;
        }
    printf("%llu lines, medians of %d rounds\n%-26s %6s %7s\n", (unsigned long long)lines, rounds, "of a line", "ns", "of all");
    for (int i = 0; i < STAGE_COUNT; i++) {
        for (int r = 0; r < rounds; r++) sorted[r] = ns[r][i];
        qsort(sorted, rounds, sizeof *sorted, by_value);
        double median = sorted[rounds / 2];
        for (int r = 0; r < rounds; r++) sorted[r] = ns[r][i] / ns[r][STAGE_COUNT - 1];
        qsort(sorted, rounds, sizeof *sorted, by_value);
        printf("%-26s %6.1f %7.3f\n", STAGES[i].name, median, sorted[rounds / 2]);
    }
    return 0;
}

int main(int argc, char **argv)
{
    if (argc < 2) { fprintf(stderr, "usage: stages FILE [ROUNDS]\n"); return 2; }
    tables();
    return stages(argv[1], argc > 2 ? atoi(argv[2]) : 31);
}
