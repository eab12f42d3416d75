/* A frame in a record beside the same frame in the layer alone, coded and taken back: at the smallest layer (mode 1,
   QPSK 1/2, one segment: 12 packets), with all three layers of the record used, and at the largest (mode 3, 64QAM 7/8,
   thirteen segments: 3,276 packets), beside which no other has room. Both go through the entries of stages.h, which are
   compiled together: the same code laid out in two libraries differs by up to 5 % either way. A round takes the layers in turn, several frames of each, from their start: once in the record, and once with
   each layer's state alone. After it carriers or slots, and the layers' bytes, of both ways are compared; and those that
   the doors of warintaya.h give, once for each layer. */
#include "jobs.h"
#include "measure.h"
#include "plain.h"
#include "stages.h"
#include "warintaya.h"
#include <stdlib.h>
#include <string.h>

enum { CODING = WARINTAYA_STATE, RECEIVING = WARINTAYA_RECEIVING_STATE, SLOT = WARINTAYA_SLOT };
enum { IN_RECORD, ALONE, WAYS };

/* How many layers of the record are used, all with the same settings, and how many frames of each a round has. */
static uint8_t used;
static size_t turns, count, carriers_len;

/* The records before the first frame, and as the rounds leave them; the layers' states of the way without a record. */
static uint8_t coding_started[WARINTAYA_RECORD], coding[WARINTAYA_RECORD], coding_alone[WARINTAYA_LAYERS][CODING];
static uint8_t receiving_started[WARINTAYA_RECEIVING_RECORD], receiving[WARINTAYA_RECEIVING_RECORD];
static uint8_t receiving_alone[WARINTAYA_LAYERS][RECEIVING];

/* The packets of every frame, turn by turn, and in a turn layer by layer; and what each way gave, in the same order. */
static uint8_t *packets, *carriers[WAYS], *slots[WAYS];

/* Where the frame of a layer and a turn stands among all. */
static size_t frame_at(size_t turn, uint8_t layer) {
    return turn * used + layer;
}

static uint8_t *packets_of(size_t frame) {
    return packets + PACKET * count * frame;
}

/* ---- coding */

static void restart_coding(void) {
    memcpy(coding, coding_started, sizeof coding);
    memset(carriers[IN_RECORD], 0xff, turns * used * carriers_len);
}

static void restart_coding_alone(void) {
    for (int layer = 0; layer < used; layer++)
        memcpy(coding_alone[layer], coding_started + 1 + CODING * layer, CODING);
    memset(carriers[ALONE], 0xff, turns * used * carriers_len);
}

static void code_in_record(void) {
    for (size_t turn = 0; turn < turns; turn++)
        for (uint8_t layer = 0; layer < used; layer++) {
            size_t frame = frame_at(turn, layer);
            if (stages_code_in_record(coding, sizeof coding, layer, packets_of(frame), PACKET * count,
                                      carriers[IN_RECORD] + carriers_len * frame, carriers_len) != 0)
                fail("a frame in a record was refused");
        }
}

static void code_alone(void) {
    for (size_t turn = 0; turn < turns; turn++)
        for (uint8_t layer = 0; layer < used; layer++) {
            size_t frame = frame_at(turn, layer);
            if (stages_code(coding_alone[layer], CODING, packets_of(frame), PACKET * count,
                            carriers[ALONE] + carriers_len * frame, carriers_len) != 0)
                fail("a frame of a layer alone was refused");
        }
}

static void check_coded(void) {
    same(carriers[IN_RECORD], carriers[ALONE], turns * used * carriers_len, "a frame in a record is coded otherwise");
    for (int layer = 0; layer < used; layer++)
        same(coding + 1 + CODING * layer, coding_alone[layer], CODING, "a layer in a record is left otherwise");
}

/* ---- going back, with the carriers that were coded */

static void restart_back(void) {
    memcpy(receiving, receiving_started, sizeof receiving);
    memset(slots[IN_RECORD], 0xff, turns * used * SLOT * count);
}

static void restart_back_alone(void) {
    for (int layer = 0; layer < used; layer++)
        memcpy(receiving_alone[layer], receiving_started + 1 + RECEIVING * layer, RECEIVING);
    memset(slots[ALONE], 0xff, turns * used * SLOT * count);
}

/* The first frame of a layer gives twelve packets less. */
static void given_in_turn(size_t turn, uint64_t given) {
    if (given != (turn == 0 ? count - 12 : count))
        fail("another number of packets came back");
}

static void back_in_record(void) {
    uint64_t given;
    for (size_t turn = 0; turn < turns; turn++)
        for (uint8_t layer = 0; layer < used; layer++) {
            size_t frame = frame_at(turn, layer);
            if (stages_back_in_record(receiving, sizeof receiving, layer, carriers[IN_RECORD] + carriers_len * frame,
                                      carriers_len, slots[IN_RECORD] + SLOT * count * frame, SLOT * count, &given) != 0)
                fail("a received frame in a record was refused");
            given_in_turn(turn, given);
        }
}

static void back_alone(void) {
    uint64_t given;
    for (size_t turn = 0; turn < turns; turn++)
        for (uint8_t layer = 0; layer < used; layer++) {
            size_t frame = frame_at(turn, layer);
            if (stages_back(receiving_alone[layer], RECEIVING, carriers[IN_RECORD] + carriers_len * frame, carriers_len,
                            slots[ALONE] + SLOT * count * frame, SLOT * count, &given) != 0)
                fail("a received frame of a layer alone was refused");
            given_in_turn(turn, given);
        }
}

/* What comes back in the first turn is what was sent; of all turns both ways give the same. */
static void check_back(void) {
    for (uint8_t layer = 0; layer < used; layer++)
        for (size_t i = 0; i < count - 12; i++)
            same(slots[IN_RECORD] + SLOT * (count * layer + i) + 1, packets_of(layer) + PACKET * i, PACKET,
                 "another packet came back");
    same(slots[IN_RECORD], slots[ALONE], turns * used * SLOT * count, "a frame in a record comes back otherwise");
    for (int layer = 0; layer < used; layer++)
        same(receiving + 1 + RECEIVING * layer, receiving_alone[layer], RECEIVING, "a receiver is left otherwise");
}

/* ---- a layer both ways */

/* Lays out the records and the areas for so many layers of these settings, and so many frames of each. */
static void lay_out(uint8_t mode, struct warintaya_layer layer, size_t layers, size_t frames) {
    struct warintaya_layer station[WARINTAYA_LAYERS] = {{0, 0, 0}};
    for (size_t i = 0; i < layers; i++)
        station[i] = layer;
    if (warintaya_start(mode, station, coding_started, sizeof coding_started) != 0 ||
        warintaya_receive_start(mode, station, receiving_started, sizeof receiving_started) != 0)
        fail("a record was not started");
    used = (uint8_t)layers, turns = frames;
    count = warintaya_packets(mode, layer.v, layer.rate, layer.segments);
    carriers_len = warintaya_carriers(mode, layer.v, layer.rate, layer.segments);
    packets = area(PACKET * count * turns * used);
    random_packets(packets, count * turns * used);
    for (int way = 0; way < WAYS; way++)
        carriers[way] = area(carriers_len * turns * used), slots[way] = area(SLOT * count * turns * used);
}

static void clear_away(void) {
    free(packets);
    for (int way = 0; way < WAYS; way++)
        free(carriers[way]), free(slots[way]);
}

/* Both ways of coding or of going back. */
static void pair_job(const char *name, const char *setting, double on_air, struct pair pair) {
    pair.who[IN_RECORD] = "in a record", pair.who[ALONE] = "layer alone";
    pair.units = (double)(turns * used * count);
    measure_pair((struct job){name, setting, on_air}, pair);
}

/* The doors give what the rounds gave in a record: carriers, slots, and the records behind them. */
static void check_doors(void) {
    uint8_t sent[WARINTAYA_RECORD], taken[WARINTAYA_RECEIVING_RECORD];
    uint8_t *coded = area(carriers_len), *given = area(SLOT * count);
    uint64_t number;
    memcpy(sent, coding_started, sizeof sent), memcpy(taken, receiving_started, sizeof taken);
    for (size_t turn = 0; turn < turns; turn++)
        for (uint8_t layer = 0; layer < used; layer++) {
            size_t frame = frame_at(turn, layer);
            memset(given, 0xff, SLOT * count);
            if (warintaya_code(sent, sizeof sent, layer, packets_of(frame), PACKET * count, coded, carriers_len) != 0 ||
                warintaya_back(taken, sizeof taken, layer, coded, carriers_len, given, SLOT * count, &number) != 0)
                fail("a door refused a frame");
            given_in_turn(turn, number);
            same(coded, carriers[IN_RECORD] + carriers_len * frame, carriers_len, "a door codes otherwise");
            same(given, slots[IN_RECORD] + SLOT * count * frame, SLOT * count, "a door takes back otherwise");
        }
    same(sent, coding, sizeof sent, "a door leaves another record");
    same(taken, receiving, sizeof taken, "a door leaves another receiving record");
    free(coded), free(given);
}

static void layer_jobs(const char *setting, double on_air, int coding_rounds, int back_rounds) {
    pair_job("code, record or not", setting, on_air,
             (struct pair){.count = coding_rounds,
                           .prepare = {restart_coding, restart_coding_alone},
                           .work = {code_in_record, code_alone},
                           .check = check_coded});
    pair_job("go back, record or not", setting, on_air,
             (struct pair){.count = back_rounds,
                           .prepare = {restart_back, restart_back_alone},
                           .work = {back_in_record, back_alone},
                           .check = check_back});
    check_doors();
}

void record_jobs(void) {
    lay_out(1, (struct warintaya_layer){2, 1, 1}, 3, 6);
    layer_jobs("QPSK 1/2, mode 1, 3 x N 1", packets_on_air(1, 2, 1, 1), 500, 200);
    clear_away();
    lay_out(3, (struct warintaya_layer){6, 5, 13}, 1, 1);
    layer_jobs("64QAM 7/8, N 13", packets_on_air(3, 6, 5, 13), 500, 50);
    clear_away();
}
