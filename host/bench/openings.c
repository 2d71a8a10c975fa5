/* Times opening in several builds of the engine, in turn, beside memset. See the script openings.
 *
 *     openings LABEL LIBRARY.so [LABEL LIBRARY.so ...]
 *
 * Opening is a run of no commands: the journal is filled with zero and the result written. All sides clear the same buffer in turn, and
 * then another one: which pages a buffer has got, and so how it lies in the cache, makes more difference than the sides do.
 */
#define _POSIX_C_SOURCE 199309L
#include <dlfcn.h>
#include <stdint.h>
#include <stdio.h>
#include <stdlib.h>
#include <string.h>
#include <time.h>

enum { JOURNAL = 1 << 20, GUARD = 64, RESULT = 16, BUFFERS = 25, RUNS = 20, MOST = 8 };
static const double RUN_NS = 1e6;

typedef uint8_t run_call(const uint8_t *commands, size_t commands_length, const uint8_t *stream, size_t stream_length,
                         uint8_t *journal, size_t journal_length, uint8_t *answers, size_t answers_length,
                         uint8_t *result, size_t result_length);

/* one side of the measurement: a build and a journal's length, or memset where there is no build */
struct side {
    const char *label;
    run_call *run;
    size_t length;
    long repeats;
    double best[BUFFERS];
    double ratio[BUFFERS];
};

static uint8_t *space;
static uint8_t *journal;
static const size_t SPACE = GUARD + JOURNAL + GUARD;
static uint8_t nothing[1];

static int failed(const char *what, const char *why)
{
    fprintf(stderr, "openings: %s: %s\n", what, why);
    return 1;
}

/* 0, or the number by which a run was refused */
static uint8_t clear(const struct side *side)
{
    uint8_t result[RESULT], number = 0;
    if (side->run)
        number = side->run(nothing, 0, nothing, 0, journal, side->length, nothing, 0, result, sizeof result);
    else
        memset(journal, 0, side->length);
    __asm__ volatile("" ::: "memory");
    return number;
}

/* nothing is refused, every byte of the journal is zero after it, and every byte around it as it was */
static int clears(const struct side *side)
{
    memset(space, 0xA5, SPACE);
    if (clear(side) != 0)
        return 0;
    for (size_t i = 0; i < SPACE; i++)
        if (space[i] != (i >= GUARD && i < GUARD + side->length ? 0 : 0xA5))
            return 0;
    return 1;
}

static double taken(const struct side *side)
{
    struct timespec from, to;
    clock_gettime(CLOCK_MONOTONIC, &from);
    for (long i = 0; i < side->repeats; i++)
        clear(side);
    clock_gettime(CLOCK_MONOTONIC, &to);
    return (to.tv_sec - from.tv_sec) * 1e9 + (to.tv_nsec - from.tv_nsec);
}

/* another buffer; the ones before are kept, so that it has other pages */
static int next_buffer(void)
{
    space = aligned_alloc(4096, (SPACE + 4095) / 4096 * 4096);
    journal = space + GUARD;
    return space == NULL;
}

static int warm_up(struct side *side)
{
    if (!clears(side))
        return failed(side->label, "refused, or the journal is not cleared, or more is");
    for (side->repeats = 1; taken(side) < RUN_NS;)
        side->repeats *= 2;
    return 0;
}

/* the best of each side on one buffer, and its ratio to the first side's */
static void measure(struct side *sides, int count, int buffer)
{
    for (int i = 0; i < count; i++)
        sides[i].best[buffer] = 1e300;
    for (int turn = 0; turn < RUNS; turn++)
        for (int i = 0; i < count; i++) {
            double ns = taken(&sides[i]) / sides[i].repeats;
            if (ns < sides[i].best[buffer])
                sides[i].best[buffer] = ns;
        }
    for (int i = 0; i < count; i++)
        sides[i].ratio[buffer] = sides[i].best[buffer] / sides[0].best[buffer];
}

static int compared(const void *a, const void *b)
{
    double x = *(const double *)a, y = *(const double *)b;
    return (x > y) - (x < y);
}

static double median(double *values)
{
    qsort(values, BUFFERS, sizeof *values, compared);
    return values[BUFFERS / 2];
}

static int add_build(struct side *sides, const char *label, const char *path)
{
    void *library = dlopen(path, RTLD_NOW | RTLD_LOCAL);
    if (!library)
        return failed(label, dlerror());
    run_call *run;
    *(void **)&run = dlsym(library, "olgaemuri_run");
    if (!run)
        return failed(label, "no olgaemuri_run");
    sides[0] = (struct side){.label = label, .run = run, .length = JOURNAL};
    sides[1] = (struct side){.label = label, .run = run, .length = 0};
    return 0;
}

int main(int count, char **words)
{
    static struct side sides[1 + 2 * MOST] = {{.label = "memset", .length = JOURNAL}};
    int n = 1;
    if (count % 2 == 0 || count < 3 || count > 1 + 2 * MOST)
        return failed("arguments", "a label and a library for each build, eight builds at most");
    for (int i = 1; i < count; i += 2, n += 2)
        if (add_build(sides + n, words[i], words[i + 1]))
            return 1;
    for (int buffer = 0; buffer < BUFFERS; buffer++) {
        if (next_buffer())
            return failed("a buffer", "no memory");
        for (int i = 0; i < n; i++)
            if (warm_up(&sides[i]))
                return 1;
        measure(sides, n, buffer);
    }
    printf("medians over %d buffers of the best of %d runs of 1 ms, in turn, and of the buffers' ratios\n", BUFFERS, RUNS);
    printf("%-36s%16s%12s%14s\n", "", "2^20 bytes, ns", "/ memset", "no bytes, ns");
    printf("%-36s%16.0f%12.2f\n", "memset", median(sides[0].best), 1.0);
    for (int i = 1; i < n; i += 2)
        printf("%-36s%16.0f%12.2f%14.0f\n", sides[i].label, median(sides[i].best), median(sides[i].ratio), median(sides[i + 1].best));
    return 0;
}
