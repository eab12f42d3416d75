/* Rule 1: parities, and the nearest codeword of words with wrong bytes. */
#include "jobs.h"
#include "measure.h"
#include "peers.h"
#include "plain.h"
#include "stages.h"
#include <stdio.h>
#include <string.h>

enum { WORDS = 400, RUN = 40, ROUNDS = 100 };

static uint8_t packets[WORDS][PACKET], right_parities[WORDS][PARITY], parities[WORDS][PARITY];
static uint8_t codewords[WORDS][WORD], damaged[WORDS][WORD], words[WORDS][WORD], slots[WORDS][PACKET + 1];
static int wrong_bytes, corrected[WORDS];

/* ---- parities */

static void our_parity(void) {
    for (int i = 0; i < WORDS; i++)
        stages_parity(packets[i], PACKET, parities[i], PARITY);
}

static void our_parities(void) {
    for (int i = 0; i < WORDS; i += RUN)
        stages_parities(packets[i], PACKET * RUN, parities[i], PARITY * RUN);
}

static void clear_parities(void) {
    memset(parities, 0, sizeof parities);
}

static void check_parities(void) {
    same(parities, right_parities, sizeof parities, "a parity is not the plain one");
}

#ifdef WITH_LIBFEC
static void their_parity(void) {
    for (int i = 0; i < WORDS; i++)
        libfec_parity(packets[i], parities[i]);
}
#endif

static void parity_jobs(double on_air) {
    struct job one = {"parity of a packet", "", on_air}, run = {"parities of a run", "runs of 40", on_air};
    struct rounds rounds = {ROUNDS, WORDS, clear_parities, our_parity, check_parities};
    measure_words(one, "warintaya", rounds);
    rounds.work = our_parities;
    measure_words(run, "warintaya", rounds);
#ifdef WITH_LIBFEC
    rounds.work = their_parity;
    measure_words(one, "libfec", rounds);
#endif
}

/* ---- the nearest codeword */

/* Changes so many bytes of each codeword, in different places. */
static void damage(int errors) {
    wrong_bytes = errors;
    memcpy(damaged, codewords, sizeof damaged);
    for (int i = 0; i < WORDS; i++)
        for (int k = 0; k < errors; k++)
            damaged[i][25 * k + (int)(random_number() % 25)] ^= (uint8_t)(1 + random_number() % 255);
}

static void lay_out_words(void) {
    memcpy(words, damaged, sizeof words);
    memset(corrected, 0xff, sizeof corrected);
}

static void our_correct(void) {
    for (int i = 0; i < WORDS; i++) {
        uint8_t count = 255;
        stages_correct(words[i], WORD, &count);
        corrected[i] = count;
    }
}

static void check_words(void) {
    same(words, codewords, sizeof words, "a word was not corrected");
    for (int i = 0; i < WORDS; i++)
        if (corrected[i] != wrong_bytes)
            fail("another number of bytes was corrected");
}

#ifdef WITH_LIBFEC
static void their_correct(void) {
    for (int i = 0; i < WORDS; i++)
        corrected[i] = libfec_correct(words[i]);
}
#endif

static void nearest_jobs(double on_air, int errors) {
    char setting[20];
    snprintf(setting, sizeof setting, "%d bytes wrong", errors);
    struct job job = {"nearest codeword", setting, on_air};
    struct rounds rounds = {ROUNDS, WORDS, lay_out_words, our_correct, check_words};
    damage(errors);
    measure_words(job, "warintaya", rounds);
#ifdef WITH_LIBFEC
    rounds.work = their_correct;
    measure_words(job, "libfec", rounds);
#endif
}

/* ---- the slot of a received word */

static void our_slot(void) {
    for (int i = 0; i < WORDS; i++)
        stages_slot(codewords[i] + 1, WORD - 1, slots[i], PACKET + 1);
}

static void check_slots(void) {
    for (int i = 0; i < WORDS; i++) {
        if (slots[i][0] != 0)
            fail("a slot tells of wrong bytes");
        same(slots[i] + 1, packets[i], PACKET, "a slot has another packet");
    }
    memset(slots, 0xff, sizeof slots);
}

void reed_solomon_jobs(void) {
    double on_air = packets_on_air(3, 6, 5, 13);
    random_packets(packets[0], WORDS);
    for (int i = 0; i < WORDS; i++) {
        plain_parity(packets[i], right_parities[i]);
        memcpy(codewords[i], packets[i], PACKET);
        memcpy(codewords[i] + PACKET, right_parities[i], PARITY);
    }
    parity_jobs(on_air);
    for (int errors = 0; errors <= 8; errors += 4)
        nearest_jobs(on_air, errors);
    measure_words((struct job){"slot of a word", "0 bytes wrong", on_air}, "warintaya",
                  (struct rounds){ROUNDS, WORDS, NULL, our_slot, check_slots});
}
