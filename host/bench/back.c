/* Going back through the door, at 64QAM and mode 3 with thirteen segments, as layer A of a record: the first frame as
   it was coded, and with 1 % of the carrier bits wrong. Every packet that comes back is compared with the one that was
   sent; undamaged, every packet has to come back. */
#include "jobs.h"
#include "measure.h"
#include "peers.h"
#include "plain.h"
#include "warintaya.h"
#include <stdio.h>
#include <stdlib.h>
#include <string.h>

enum { MODE = 3, V = 6, SEGMENTS = 13, ROUNDS = 15, SLOT = WARINTAYA_SLOT, UNTOUCHED = 99 };

/* A frame as it is received, and what was sent. */
static uint8_t *sent, *carriers, *slots;
static size_t count, carriers_len;
static int clean;
static uint8_t rate, started[WARINTAYA_RECEIVING_RECORD], receiving[WARINTAYA_RECEIVING_RECORD];

/* Flips one in a hundred of the carriers' bits, on average. */
static void damage(void) {
    for (size_t i = 0; i < carriers_len; i++)
        for (int bit = 0; bit < V; bit++)
            if (random_number() % 100 == 0)
                carriers[i] ^= (uint8_t)(1 << bit);
}

static void make_frame(void) {
    static uint8_t coding[WARINTAYA_RECORD];
    const struct warintaya_layer layers[WARINTAYA_LAYERS] = {{V, rate, SEGMENTS}};
    if (warintaya_start(MODE, layers, coding, sizeof coding) != 0 ||
        warintaya_receive_start(MODE, layers, started, sizeof started) != 0)
        fail("a layer was not started");
    random_packets(sent, count);
    if (warintaya_code(coding, sizeof coding, WARINTAYA_LAYER_A, sent, PACKET * count, carriers, carriers_len) != 0)
        fail("a frame was refused");
    if (!clean)
        damage();
}

/* How many packets came back, of the count - 12 that the first frame gives. */
static size_t came_back(void) {
    size_t right = 0;
    for (size_t i = 0; i < count - 12; i++) {
        const uint8_t *slot = slots + SLOT * i;
        if (slot[0] == 254 || slot[0] == 255)
            continue;
        if (slot[0] > 8)
            fail("a slot was left as it was");
        same(slot + 1, sent + PACKET * i, PACKET, "another packet came back");
        right++;
    }
    return right;
}

static void check_packets(void) {
    if (came_back() != count - 12 && clean)
        fail("a packet did not come back");
}

static void restart(void) {
    memset(slots, UNTOUCHED, SLOT * count);
    memcpy(receiving, started, sizeof receiving);
}

static void our_back(void) {
    uint64_t given;
    if (warintaya_back(receiving, sizeof receiving, WARINTAYA_LAYER_A, carriers, carriers_len, slots, SLOT * count,
                       &given) != 0 ||
        given != count - 12)
        fail("a received frame was refused");
}

#if defined WITH_LIBFEC && defined WITH_VOLK
static void their_back(void) {
    volk_back(rate, carriers, carriers_len, count, slots);
}
#endif

static void note(const char *setting, const char *who) {
    if (!clean)
        printf("# %s, %s: %zu of %zu packets come back\n", setting, who, came_back(), count - 12);
}

static void back_job(const char *setting, uint8_t at_rate, int undamaged) {
    struct job job = {"go back", setting, packets_on_air(MODE, V, at_rate, SEGMENTS)};
    rate = at_rate, clean = undamaged;
    count = warintaya_packets(MODE, V, rate, SEGMENTS), carriers_len = warintaya_carriers(MODE, V, rate, SEGMENTS);
    sent = area(PACKET * count), slots = area(SLOT * count), carriers = area(carriers_len);
    make_frame();
    struct rounds rounds = {ROUNDS, (double)count - 1, restart, our_back, check_packets};
    measure_words(job, "warintaya", rounds);
    note(setting, "warintaya");
#if defined WITH_LIBFEC && defined WITH_VOLK
    rounds.work = their_back;
    measure_words(job, "VOLK+libfec", rounds);
    note(setting, "VOLK+libfec");
#endif
    free(sent), free(slots), free(carriers);
}

void back_jobs(void) {
    back_job("64QAM 1/2, N 13, clean", 1, 1);
    back_job("64QAM 1/2, N 13, 1 % wrong", 1, 0);
    back_job("64QAM 7/8, N 13, clean", 5, 1);
    back_job("64QAM 7/8, N 13, 1 % wrong", 5, 0);
}
