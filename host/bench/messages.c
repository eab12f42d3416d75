/* The best message of a word: 1,632 bits from register 0, 1 % of the received bits wrong. Ours is compared with the
   plain search, which has the same rule for equals. The other decoders have another rule: what they give may not
   disagree with fewer received bits. */
#include "jobs.h"
#include "measure.h"
#include "peers.h"
#include "plain.h"
#include "stages.h"
#include <string.h>

enum { WORDS = 50, ROUNDS = 40, MISSING = 2 };

static uint8_t pairs[WORDS][WORD_BITS], right[WORDS][WORD_BITS], messages[WORDS][WORD_BITS];
static uint8_t received[WORDS][2 * WORD_BITS] __attribute__((aligned(64)));
static uint8_t table[64 * WORD_BITS + 64];

/* The bit received for one that was kept, or MISSING; one in a hundred is wrong. */
static uint8_t receive(int kept, const uint8_t **next) {
    if (!kept)
        return MISSING;
    return *(*next)++ ^ (random_number() % 100 == 0);
}

static uint8_t level(uint8_t bit) {
    return bit == MISSING ? 128 : bit ? 255 : 0;
}

static void make_words(uint8_t rate) {
    static uint8_t sent[WORD_BITS], kept[2 * WORD_BITS];
    for (int word = 0; word < WORDS; word++) {
        for (int i = 0; i < WORD_BITS; i++)
            sent[i] = random_number() & 1;
        plain_kept(rate, sent, WORD_BITS, kept);
        const uint8_t *next = kept;
        for (size_t i = 0; i < WORD_BITS; i++) {
            uint8_t x = receive(keeps_x(rate, i), &next), y = receive(keeps_y(rate, i), &next);
            pairs[word][i] = (uint8_t)(3 * x + y);
            received[word][2 * i] = level(x);
            received[word][2 * i + 1] = level(y);
        }
        plain_best_message(pairs[word], WORD_BITS, right[word]);
    }
}

static void our_messages(void) {
    for (int word = 0; word < WORDS; word++)
        if (stages_best_message(pairs[word], WORD_BITS, 0, table, sizeof table, messages[word], WORD_BITS) != 0)
            fail("pairs were refused");
}

static void check_ours(void) {
    same(messages, right, sizeof messages, "a message is not the best one");
    memset(messages, 0xff, sizeof messages);
}

#if defined WITH_LIBFEC || defined WITH_VOLK
static uint8_t bytes[WORDS][WORD];

/* Theirs disagrees with as many received bits as the best message, or with some more. A message at random would
   disagree with half of them. */
static void check_theirs(void) {
    static uint8_t message[WORD_BITS];
    for (int word = 0; word < WORDS; word++) {
        bits_of(bytes[word], WORD, message);
        size_t fewest = disagreements(pairs[word], right[word], WORD_BITS);
        size_t theirs = disagreements(pairs[word], message, WORD_BITS);
        if (theirs < fewest)
            fail("another decoder gave a better message");
        if (theirs > fewest + WORD_BITS / 16)
            fail("another decoder gave another message");
    }
    memset(bytes, 0, sizeof bytes);
}
#endif

#ifdef WITH_LIBFEC
static void libfec_messages(void) {
    for (int word = 0; word < WORDS; word++) {
        unsigned end = 0;
        for (int i = WORD_BITS - 6; i < WORD_BITS; i++)
            end = end << 1 | right[word][i];
        libfec_message(received[word], 0, end, bytes[word]);
    }
}
#endif

#ifdef WITH_VOLK
static void volk_messages(void) {
    for (int word = 0; word < WORDS; word++)
        volk_message(received[word], 0, bytes[word]);
}
#endif

static void message_job(const char *setting, uint8_t rate) {
    struct job job = {"best message", setting, packets_on_air(3, 6, rate, 13)};
    make_words(rate);
    measure_words(job, "warintaya", (struct rounds){ROUNDS, WORDS, NULL, our_messages, check_ours});
#ifdef WITH_VOLK
    measure_words(job, "VOLK", (struct rounds){ROUNDS, WORDS, NULL, volk_messages, check_theirs});
#endif
#ifdef WITH_LIBFEC
    measure_words(job, "libfec", (struct rounds){ROUNDS, WORDS, NULL, libfec_messages, check_theirs});
#endif
}

void message_jobs(void) {
    message_job("1/2", 1);
    message_job("7/8", 5);
}
