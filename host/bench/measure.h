/* What the benchmark's files share: a clock, numbers that look random, rounds that are timed and compared, and rows.

   A row is `job|setting|who|per|best|median|worst|on air`: the nanoseconds for each `per`, which is a word (one packet
   with its parity) or a call, and the packets a second that the setting needs on the air, or 0 where that is no
   measure. A row whose `per` is `per cent` says by how much one way of the same work is slower than another: a quarter,
   half and three quarters of the rounds are below its three numbers. `host/bench/merge` joins the rows of several
   passes, `host/bench/table` makes the table of them. */
#pragma once
#include <stddef.h>
#include <stdint.h>

/* What is timed: the row's first two fields, and the packets a second that the setting needs. */
struct job {
    const char *name, *setting;
    double on_air;
};

/* The rounds of a job: `prepare` lays the input out anew, `work` is timed, `check` compares all that it gave and fails
   where anything differs. `units` is how many words or calls `work` does. `prepare` may be NULL. */
struct rounds {
    int count;
    double units;
    void (*prepare)(void), (*work)(void), (*check)(void);
};

/* Two ways of the same work, by name. A round does both one after the other, each from what its `prepare` has laid out;
   the first way goes first in every other round, so that a clock that wanders favours neither. */
struct pair {
    int count;
    double units;
    const char *who[2];
    void (*prepare[2])(void), (*work[2])(void), (*check)(void);
};

enum { MOST_ROUNDS = 500 };

uint32_t random_number(void);
void random_bytes(uint8_t *bytes, size_t length);
void random_packets(uint8_t *packets, size_t count); /* each begins with 47 */
void *area(size_t length);                           /* zeros, or the end of the program */
void fail(const char *what);
void same(const void *a, const void *b, size_t length, const char *what); /* fails where they differ */

/* The packets a second of a layer on the air: P in the time of a frame with the shortest guard interval, 1/32. */
double packets_on_air(uint8_t mode, uint8_t v, uint8_t rate, uint8_t segments);

/* From then on a job is done in one round, compared, and printed in no row. */
void compare_alone(void);

/* Times the rounds and prints the row: nanoseconds a word, or a call. */
void measure_words(struct job job, const char *who, struct rounds rounds);
void measure_calls(struct job job, const char *who, struct rounds rounds);

/* Times both ways and prints a row for each, and one of how much longer the first takes, round by round, in per cent. */
void measure_pair(struct job job, struct pair pair);
