/* libfec, as Debian has it. Its decoder of the convolutional code is portable C in the package for amd64. */
#include "peers.h"
#include "plain.h"
#include <fec.h>

static void *reed_solomon(void) {
    static void *code;
    if (!code)
        code = init_rs_char(8, 0x11d, 0, 1, PARITY, 255 - WORD);
    return code;
}

void libfec_parity(const uint8_t *packet, uint8_t *parity) {
    encode_rs_char(reed_solomon(), (uint8_t *)(uintptr_t)packet, parity);
}

int libfec_correct(uint8_t *word) {
    return decode_rs_char(reed_solomon(), word, NULL, 0);
}

void libfec_message(const uint8_t *received, unsigned register_, unsigned end, uint8_t *bytes) {
    static void *decoder;
    if (!decoder) {
        int taps[2] = {0x4f, 0x6d}; /* 171 and 133 octal, the newest bit lowest */
        decoder = create_viterbi27(WORD_BITS);
        set_viterbi27_polynomial(taps);
    }
    init_viterbi27(decoder, (int)register_);
    update_viterbi27_blk(decoder, (uint8_t *)(uintptr_t)received, WORD_BITS);
    chainback_viterbi27(decoder, bytes, WORD_BITS - 6, end);
    bytes[WORD - 1] = (uint8_t)((bytes[WORD - 1] & 0xc0) | end);
}
