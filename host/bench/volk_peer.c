/* VOLK's kernel for the convolutional code, which takes the quickest instructions that the processor has, and the walk
   back through its decisions, which is the caller's. */
#include "peers.h"
#include "plain.h"
#include <string.h>
#include <volk/volk.h>

static uint8_t branches[64] __attribute__((aligned(64)));
static uint8_t metrics[64] __attribute__((aligned(64))), metrics_room[64] __attribute__((aligned(64)));
static uint64_t decisions[WORD_BITS]
    __attribute__((aligned(64))); /* bit s of a step: the choice that leads to register s */

static void fill_branches(void) {
    const unsigned taps[2] = {0x4f, 0x6d}; /* 171 and 133 octal, the newest bit lowest */
    for (unsigned output = 0; output < 2; output++)
        for (unsigned s = 0; s < 32; s++)
            branches[32 * output + s] = __builtin_parity(2 * s & taps[output]) ? 255 : 0;
}

static unsigned best_end(void) {
    unsigned best = 0;
    for (unsigned s = 1; s < 64; s++)
        if (metrics[s] < metrics[best])
            best = s;
    return best;
}

/* From the last bit to the first; a byte of the message is complete when its first bit has been put. */
static void walk_back(unsigned end, uint8_t *bytes) {
    unsigned eight = end << 2; /* the register, and two bits behind it */
    for (int i = WORD_BITS - 7; i >= 0; i--) {
        unsigned bit = (unsigned)(decisions[i + 6] >> (eight >> 2)) & 1;
        eight = eight >> 1 | bit << 7;
        bytes[i / 8] = (uint8_t)eight;
    }
    bytes[WORD - 1] = (uint8_t)((bytes[WORD - 1] & 0xc0) | end);
}

unsigned volk_message(const uint8_t *received, unsigned register_, uint8_t *bytes) {
    if (branches[1] == 0 && branches[33] == 0)
        fill_branches();
    memset(metrics, 63, sizeof metrics);
    metrics[register_] = 0;
    memset(decisions, 0, sizeof decisions);
    volk_8u_x4_conv_k7_r2_8u(metrics_room, metrics, (uint8_t *)(uintptr_t)received, (uint8_t *)decisions, WORD_BITS, 0,
                             branches);
    unsigned end = best_end();
    walk_back(end, bytes);
    return end;
}
