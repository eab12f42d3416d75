/* Whole frames coded through the door, in mode 3, as layer A of a record that has no other, each compared with the
   plain computation. */
#include "jobs.h"
#include "measure.h"
#include "plain.h"
#include "warintaya.h"
#include <stdio.h>
#include <stdlib.h>
#include <string.h>

enum { MODE = 3, ROUNDS = 60 };

static uint8_t started[WARINTAYA_RECORD], record[WARINTAYA_RECORD], *packets, *carriers, *right;
static size_t count, carriers_len;

static void restart(void) {
    memcpy(record, started, sizeof record);
    memset(carriers, 0xff, carriers_len);
}

static void our_frame(void) {
    if (warintaya_code(record, sizeof record, WARINTAYA_LAYER_A, packets, PACKET * count, carriers, carriers_len) != 0)
        fail("a frame was refused");
}

static void check_frame(void) {
    same(carriers, right, carriers_len, "a frame is not coded as plainly");
}

static void frame_job(uint8_t v, uint8_t rate, uint8_t segments) {
    static const char *const modulations[7] = {[2] = "QPSK", [4] = "16QAM", [6] = "64QAM"};
    const struct warintaya_layer layers[WARINTAYA_LAYERS] = {{v, rate, segments}};
    char setting[40];
    snprintf(setting, sizeof setting, "%s %s, N %d", modulations[v], rate == 1 ? "1/2" : "7/8", segments);
    count = warintaya_packets(MODE, v, rate, segments);
    carriers_len = warintaya_carriers(MODE, v, rate, segments);
    packets = area(PACKET * count), carriers = area(carriers_len), right = area(carriers_len);
    if (warintaya_start(MODE, layers, started, sizeof started) != 0)
        fail("a layer was not started");
    random_packets(packets, count);
    plain_frame(v, rate, packets, count, right, carriers_len);
    measure_words((struct job){"code a frame", setting, packets_on_air(MODE, v, rate, segments)}, "warintaya",
                  (struct rounds){ROUNDS, (double)count, restart, our_frame, check_frame});
    free(packets), free(carriers), free(right);
}

void frame_jobs(void) {
    static const uint8_t rates[2] = {1, 5}, sizes[2] = {13, 1};
    for (uint8_t v = 2; v <= 6; v = (uint8_t)(v + 2))
        for (int rate = 0; rate < 2; rate++)
            for (int size = 0; size < 2; size++)
                frame_job(v, rates[rate], sizes[size]);
}
