/* The way back put together from VOLK's decoder, libfec's Reed-Solomon code and the plain C that a user would write
   around them, for the first frame of a 64QAM layer. */
#include "measure.h"
#include "peers.h"
#include "plain.h"
#include <string.h>

enum { LINE_DELAY = 24, DELAYS = 120, LAST_BRANCH = 11, MOST_WORDS = 3276, MOST_CARRIERS = 1018368 };

static uint8_t symbols[MOST_CARRIERS], words[WORD * MOST_WORDS], sequence[WORD * MOST_WORDS];
static uint8_t received[2 * WORD_BITS] __attribute__((aligned(64)));

/* Where the next received bit is: its symbol, its bit, and its message bit's place in the pattern. */
struct place {
    size_t symbol;
    int bit;
    size_t in_pattern;
};

/* Takes rule 6 off: the six bits that were kept side by side stand side by side. */
static void gather_symbols(const uint8_t *carriers, size_t carriers_len) {
    for (size_t c = 0; c < carriers_len - DELAYS; c++)
        symbols[c] = (uint8_t)((carriers[c] & 32) | (carriers[c + LINE_DELAY] & 16) |
                               (carriers[c + 2 * LINE_DELAY] & 8) | (carriers[c + 3 * LINE_DELAY] & 4) |
                               (carriers[c + 4 * LINE_DELAY] & 2) | (carriers[c + 5 * LINE_DELAY] & 1));
}

static uint8_t next_bit(struct place *place) {
    uint8_t bit = symbols[place->symbol] >> place->bit & 1 ? 255 : 0;
    if (--place->bit < 0) {
        place->bit = 5;
        place->symbol++;
    }
    return bit;
}

/* Takes rule 5 off: X and Y of each message bit of a word, 128 where none was sent. */
static void receive_word(const uint8_t keeps[2][7], size_t pattern_length, struct place *place) {
    for (size_t i = 0; i < WORD_BITS; i++) {
        received[2 * i] = keeps[0][place->in_pattern] ? next_bit(place) : 128;
        received[2 * i + 1] = keeps[1][place->in_pattern] ? next_bit(place) : 128;
        if (++place->in_pattern == pattern_length)
            place->in_pattern = 0;
    }
}

/* Takes rule 3 off: byte j of word p belongs to word p - (j mod 12). */
static void put_bytes(size_t p, const uint8_t *bytes) {
    for (size_t branch = 0; branch <= LAST_BRANCH && branch <= p; branch++)
        for (size_t j = branch; j < WORD; j += 12)
            words[WORD * (p - branch) + j] = bytes[j];
}

/* Takes rules 2 and 1 off: the slot of word p. */
static void give_slot(size_t p, uint8_t *slot) {
    uint8_t word[WORD];
    word[0] = 0x47;
    for (size_t j = 0; j < WORD - 1; j++)
        word[j + 1] = words[WORD * p + j] ^ sequence[WORD * p + j];
    int wrong = libfec_correct(word);
    slot[0] = wrong < 0 ? 255 : (uint8_t)wrong;
    if (wrong < 0)
        memset(slot + 1, 0, PACKET);
    else
        memcpy(slot + 1, word, PACKET);
}

void volk_back(uint8_t rate, const uint8_t *carriers, size_t carriers_len, size_t count, uint8_t *slots) {
    uint8_t keeps[2][7], bytes[WORD];
    struct place place = {0, 5, 0};
    unsigned register_ = 0;
    if (sequence[0] == 0)
        plain_sequence(sequence, sizeof sequence);
    for (size_t i = 0; i < 7; i++) {
        keeps[0][i] = (uint8_t)keeps_x(rate, i);
        keeps[1][i] = (uint8_t)keeps_y(rate, i);
    }
    gather_symbols(carriers, carriers_len);
    for (size_t p = 0; p < count - 1; p++) {
        receive_word((const uint8_t(*)[7])keeps, rate == 5 ? 7 : 1, &place);
        register_ = volk_message(received, register_, bytes);
        put_bytes(p, bytes);
        if (p >= LAST_BRANCH)
            give_slot(p - LAST_BRANCH, slots + (PACKET + 1) * (p - LAST_BRANCH));
    }
}
