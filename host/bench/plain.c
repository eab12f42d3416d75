/* The rules of the chain done plainly and slowly: see plain.h. */
#include "plain.h"
#include "measure.h"
#include <stdlib.h>
#include <string.h>

/* ---- rule 1 */

static uint8_t times(uint8_t a, uint8_t b) {
    unsigned product = 0;
    for (int bit = 7; bit >= 0; bit--) {
        product = product << 1 ^ (product & 0x80 ? 0x11d : 0);
        if (b >> bit & 1)
            product ^= a;
    }
    return (uint8_t)product;
}

/* The generator without its highest term, highest coefficient first: the product of x + 02^i, i from 0 to 15. */
static void generator(uint8_t *coefficients) {
    uint8_t product[PARITY + 1] = {1}, root = 1;
    for (int i = 0; i < PARITY; i++, root = times(root, 2))
        for (int k = i + 1; k > 0; k--)
            product[k] ^= times(product[k - 1], root);
    memcpy(coefficients, product + 1, PARITY);
}

void plain_parity(const uint8_t *packet, uint8_t *parity) {
    uint8_t coefficients[PARITY], rest[PARITY + 1] = {0};
    generator(coefficients);
    for (int i = 0; i < PACKET; i++) {
        uint8_t highest = rest[0] ^ packet[i];
        for (int k = 0; k < PARITY; k++)
            rest[k] = rest[k + 1] ^ times(highest, coefficients[k]);
    }
    memcpy(parity, rest, PARITY);
}

/* ---- rules 2 and 3 */

void plain_sequence(uint8_t *sequence, size_t length) {
    const char *loaded = "100101010000000";
    uint8_t stage[16];
    for (int i = 1; i <= 15; i++)
        stage[i] = loaded[i - 1] == '1';
    for (size_t i = 0; i < length; i++) {
        unsigned byte = 0;
        for (int bit = 0; bit < 8; bit++) {
            uint8_t out = stage[14] ^ stage[15];
            memmove(stage + 2, stage + 1, 14);
            stage[1] = out;
            byte = byte << 1 | out;
        }
        sequence[i] = i % WORD == WORD - 1 ? 0 : (uint8_t)byte;
    }
}

void plain_interleave(const uint8_t *words, size_t count, uint8_t *out) {
    memset(out, 0, WORD * count);
    for (size_t p = 0; p < count; p++)
        for (size_t j = 0; j < WORD; j++)
            if (p + j % 12 < count)
                out[WORD * (p + j % 12) + j] = words[WORD * p + j];
}

/* ---- rules 4 and 5 */

static const char *const patterns[6][7] = {
    {0}, {"XY"}, {"XY", "Y"}, {"XY", "Y", "X"}, {"XY", "Y", "X", "Y", "X"}, {"XY", "Y", "Y", "Y", "X", "Y", "X"},
};
static const size_t pattern_lengths[6] = {1, 1, 2, 3, 5, 7};

int keeps_x(uint8_t rate, size_t i) {
    return strchr(patterns[rate][i % pattern_lengths[rate]], 'X') != NULL;
}

int keeps_y(uint8_t rate, size_t i) {
    return strchr(patterns[rate][i % pattern_lengths[rate]], 'Y') != NULL;
}

static uint8_t odd(unsigned bits) {
    uint8_t ones = 0;
    for (; bits != 0; bits >>= 1)
        ones ^= bits & 1;
    return ones;
}

/* The bits X and Y of a message bit behind a register, whose newest bit is the highest. */
static uint8_t x_of(unsigned register_, unsigned bit) {
    return odd((bit << 6 | register_) & 0171);
}

static uint8_t y_of(unsigned register_, unsigned bit) {
    return odd((bit << 6 | register_) & 0133);
}

static unsigned after(unsigned register_, unsigned bit) {
    return (bit << 6 | register_) >> 1;
}

size_t plain_kept(uint8_t rate, const uint8_t *message, size_t length, uint8_t *kept) {
    size_t count = 0;
    unsigned register_ = 0;
    for (size_t i = 0; i < length; i++) {
        if (keeps_x(rate, i))
            kept[count++] = x_of(register_, message[i]);
        if (keeps_y(rate, i))
            kept[count++] = y_of(register_, message[i]);
        register_ = after(register_, message[i]);
    }
    return count;
}

/* ---- rule 6, and all of them */

void plain_carriers(uint8_t v, const uint8_t *kept, size_t count, uint8_t *carriers, size_t carriers_len) {
    memset(carriers, 0, carriers_len);
    for (size_t c = 0; c < count; c++) {
        size_t line = c % v, carrier = c / v + line * 120 / (size_t)(v - 1);
        if (carrier < carriers_len)
            carriers[carrier] |= (uint8_t)(kept[c] << (v - 1 - (int)line));
    }
}

void bits_of(const uint8_t *bytes, size_t length, uint8_t *bits) {
    for (size_t i = 0; i < 8 * length; i++)
        bits[i] = bytes[i / 8] >> (7 - i % 8) & 1;
}

void plain_frame(uint8_t v, uint8_t rate, const uint8_t *packets, size_t count, uint8_t *carriers,
                 size_t carriers_len) {
    size_t length = WORD * count;
    uint8_t *sequence = area(length), *words = area(length), *stream = area(length);
    uint8_t *message = area(8 * length), *kept = area(16 * length);
    plain_sequence(sequence, length);
    for (size_t p = 0; p < count; p++) {
        memcpy(words + WORD * p, packets + PACKET * p + 1, PACKET - 1);
        plain_parity(packets + PACKET * p, words + WORD * p + PACKET - 1);
        words[WORD * p + WORD - 1] = 0x47;
    }
    for (size_t i = 0; i < length; i++)
        words[i] ^= sequence[i];
    plain_interleave(words, count, stream);
    bits_of(stream, length, message);
    size_t kept_count = plain_kept(rate, message, 8 * length, kept);
    plain_carriers(v, kept, kept_count, carriers, carriers_len);
    free(sequence), free(words), free(stream), free(message), free(kept);
}

/* ---- the best message */

/* The disagreements of a bit behind a register with a received pair. */
static unsigned disagree(uint8_t pair, unsigned register_, unsigned bit) {
    return (pair / 3 == (x_of(register_, bit) ^ 1)) + (unsigned)(pair % 3 == (y_of(register_, bit) ^ 1));
}

void plain_best_message(const uint8_t *pairs, size_t length, uint8_t *message) {
    /* fewest[i][r]: of the disagreements from pair i on, behind register r */
    static unsigned fewest[WORD_BITS + 1][64];
    memset(fewest[length], 0, sizeof fewest[length]);
    for (size_t i = length; i-- > 0;)
        for (unsigned r = 0; r < 64; r++) {
            unsigned with_0 = disagree(pairs[i], r, 0) + fewest[i + 1][after(r, 0)];
            unsigned with_1 = disagree(pairs[i], r, 1) + fewest[i + 1][after(r, 1)];
            fewest[i][r] = with_1 < with_0 ? with_1 : with_0;
        }
    unsigned register_ = 0;
    for (size_t i = 0; i < length; i++) {
        unsigned with_0 = disagree(pairs[i], register_, 0) + fewest[i + 1][after(register_, 0)];
        message[i] = with_0 != fewest[i][register_];
        register_ = after(register_, message[i]);
    }
}

size_t disagreements(const uint8_t *pairs, const uint8_t *message, size_t length) {
    size_t count = 0;
    unsigned register_ = 0;
    for (size_t i = 0; i < length; i++) {
        count += disagree(pairs[i], register_, message[i]);
        register_ = after(register_, message[i]);
    }
    return count;
}
