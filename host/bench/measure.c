/* The clock, the rounds and the rows: see measure.h. */
#define _POSIX_C_SOURCE 199309L
#include "measure.h"
#include "warintaya.h"
#include <stdio.h>
#include <stdlib.h>
#include <string.h>
#include <time.h>

/* The nanoseconds that this program has worked: what others do on the core meanwhile isn't counted. */
static double worked(void) {
    struct timespec t;
    clock_gettime(CLOCK_THREAD_CPUTIME_ID, &t);
    return (double)t.tv_sec * 1e9 + (double)t.tv_nsec;
}

/* What reading the clock itself takes, some 200 ns: it is taken off every round. */
static double reading(void) {
    double least = 1e9;
    for (int i = 0; i < 1000; i++) {
        double began = worked(), took = worked() - began;
        if (took < least)
            least = took;
    }
    return least;
}

uint32_t random_number(void) {
    static uint64_t state = 88172645463325252u;
    state ^= state << 13;
    state ^= state >> 7;
    state ^= state << 17;
    return (uint32_t)(state >> 16);
}

void random_bytes(uint8_t *bytes, size_t length) {
    for (size_t i = 0; i < length; i++)
        bytes[i] = (uint8_t)random_number();
}

void random_packets(uint8_t *packets, size_t count) {
    random_bytes(packets, 188 * count);
    for (size_t i = 0; i < count; i++)
        packets[188 * i] = 0x47;
}

void fail(const char *what) {
    fprintf(stderr, "bench: %s\n", what);
    exit(1);
}

void *area(size_t length) {
    void *bytes = calloc(1, length);
    if (!bytes)
        fail("no memory");
    return bytes;
}

void same(const void *a, const void *b, size_t length, const char *what) {
    if (memcmp(a, b, length) != 0)
        fail(what);
}

double packets_on_air(uint8_t mode, uint8_t v, uint8_t rate, uint8_t segments) {
    double symbol = 252e-6 * (1 << (mode - 1)); /* seconds, without its guard interval */
    return (double)warintaya_packets(mode, v, rate, segments) / (204 * symbol * 33 / 32);
}

static int by_size(const void *a, const void *b) {
    double x = *(const double *)a, y = *(const double *)b;
    return x < y ? -1 : x > y;
}

static int alone;

void compare_alone(void) {
    alone = 1;
}

/* How many rounds of these are done. */
static int rounds_of(int count) {
    if (count > MOST_ROUNDS)
        fail("too many rounds");
    return alone ? 1 : count;
}

/* The nanoseconds that the work takes, but for `off`, which the clock itself does. */
static double timed(void (*prepare)(void), void (*work)(void), double off) {
    if (prepare)
        prepare();
    double began = worked();
    work();
    return worked() - began - off;
}

/* Prints the best, the median and the worst of the rounds, unless nothing is timed. */
static void print_row(struct job job, const char *who, const char *per, double on_air, double *took, int count) {
    if (alone)
        return;
    qsort(took, (size_t)count, sizeof *took, by_size);
    printf("%s|%s|%s|%s|%.0f|%.0f|%.0f|%.1f\n", job.name, job.setting, who, per, took[0], took[count / 2],
           took[count - 1], on_air);
    fflush(stdout);
}

static void measure(struct job job, const char *who, const char *per, double on_air, struct rounds rounds) {
    static double took[MOST_ROUNDS];
    double off = reading();
    int count = rounds_of(rounds.count);
    for (int i = 0; i < count; i++) {
        took[i] = timed(rounds.prepare, rounds.work, off) / rounds.units;
        rounds.check();
    }
    print_row(job, who, per, on_air, took, count);
}

void measure_words(struct job job, const char *who, struct rounds rounds) {
    measure(job, who, "word", job.on_air, rounds);
}

void measure_calls(struct job job, const char *who, struct rounds rounds) {
    measure(job, who, "call", 0, rounds);
}

/* Prints below how much more one way took a quarter, half and three quarters of the rounds lie, in per cent, and a note
   that says so. */
static void print_more(struct job job, double *more, int count) {
    if (alone)
        return;
    qsort(more, (size_t)count, sizeof *more, by_size);
    printf("%s|%s|more by|per cent|%.2f|%.2f|%.2f|0\n", job.name, job.setting, more[count / 4], more[count / 2],
           more[count * 3 / 4]);
    printf("# more by: how much longer the first of two ways takes than the second in the same round; a quarter, half and "
           "three quarters of the rounds lie below\n");
    fflush(stdout);
}

void measure_pair(struct job job, struct pair pair) {
    static double took[2][MOST_ROUNDS], more[MOST_ROUNDS];
    double off = reading();
    int count = rounds_of(pair.count);
    for (int i = 0; i < count; i++) {
        for (int turn = 0; turn < 2; turn++) {
            int way = (turn + i) % 2;
            took[way][i] = timed(pair.prepare[way], pair.work[way], off) / pair.units;
        }
        more[i] = 100 * (took[0][i] / took[1][i] - 1);
        pair.check();
    }
    for (int way = 0; way < 2; way++)
        print_row(job, pair.who[way], "word", job.on_air, took[way], count);
    print_more(job, more, count);
}
