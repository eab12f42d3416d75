/* A late replacement through the door, at 64QAM and mode 3, in layer A of a record, of one segment and of thirteen. It
   should cost no more than coding twenty words and not grow with P, but for the test of the carriers, which is linear
   in C and should cost no more than four copies of them. A round is twelve calls for packets spread over the frame. A
   call refused with 8 makes every test and nothing else. */
#include "jobs.h"
#include "measure.h"
#include "plain.h"
#include "warintaya.h"
#include <stdio.h>
#include <stdlib.h>
#include <string.h>

enum { MODE = 3, V = 6, ROUNDS = 100, CALLS = 12, COPIES = 4, TWENTY = 20 };

/* A layer's frame that is coded already, and the same coded again. */
static uint8_t started[WARINTAYA_RECORD], record[WARINTAYA_RECORD], *packets, *carriers, *again;
static size_t count, carriers_len;

static void code_into(uint8_t *from, uint8_t *to) {
    if (warintaya_code(from, WARINTAYA_RECORD, WARINTAYA_LAYER_A, packets, PACKET * count, to, carriers_len) != 0)
        fail("a frame was refused");
}

static void restart(void) {
    memcpy(record, started, sizeof record);
    memset(carriers, 0xff, carriers_len);
}

static void code_frame(void) {
    code_into(record, carriers);
}

static void check_frame(void) {
    same(carriers, again, carriers_len, "a frame is not coded as plainly");
}

/* ---- replacements of some packets, or as many that are refused */

static uint8_t new_packets[CALLS][PACKET], answers[CALLS], right_answer;
static size_t numbers[CALLS];

/* New packets for some that are spread over the frame. */
static void choose(uint8_t first_byte) {
    size_t first = random_number() % count;
    random_packets(new_packets[0], CALLS);
    for (size_t i = 0; i < CALLS; i++) {
        numbers[i] = (first + i * count / CALLS) % count;
        new_packets[i][0] = first_byte;
    }
    right_answer = first_byte == 0x47 ? 0 : 8;
}

static void choose_good(void) {
    choose(0x47);
}

static void choose_refused(void) {
    choose(0);
}

static void replace(void) {
    for (int i = 0; i < CALLS; i++)
        answers[i] = warintaya_replace(record, sizeof record, WARINTAYA_LAYER_A, carriers, carriers_len, numbers[i],
                                       packets + PACKET * numbers[i], PACKET, new_packets[i], PACKET);
}

/* What all replacements together made is compared at the end, by `check_coded_again`: so the carriers stay in the
   caches. */
static void check_answers(void) {
    for (int i = 0; i < CALLS; i++) {
        if (answers[i] != right_answer)
            fail("a replacement was answered otherwise");
        if (answers[i] == 0)
            memcpy(packets + PACKET * numbers[i], new_packets[i], PACKET);
    }
}

/* Each replacement done, and each refused, has left what coding the frame again gives. */
static void check_coded_again(void) {
    uint8_t from[WARINTAYA_RECORD];
    memcpy(from, started, sizeof from);
    code_into(from, again);
    same(carriers, again, carriers_len, "a replacement is not coding again");
    same(record, from, sizeof record, "a replacement leaves another record");
}

/* ---- the yardstick */

static void clear_copy(void) {
    memset(again, 0xff, carriers_len);
}

static void copy_carriers(void) {
    for (int i = 0; i < COPIES; i++) {
        memcpy(again, carriers, carriers_len);
        __asm__ volatile("" : : "r"(again) : "memory"); /* so that each copy is made */
    }
}

static void check_copy(void) {
    same(again, carriers, carriers_len, "memcpy copied otherwise");
}

static void call_job(const char *name, const char *setting, const char *who, struct rounds rounds) {
    measure_calls((struct job){name, setting, 0}, who, rounds);
}

static void layer_jobs(const char *setting, uint8_t rate, uint8_t segments) {
    const struct warintaya_layer layers[WARINTAYA_LAYERS] = {{V, rate, segments}};
    count = warintaya_packets(MODE, V, rate, segments);
    carriers_len = warintaya_carriers(MODE, V, rate, segments);
    packets = area(PACKET * count), carriers = area(carriers_len), again = area(carriers_len);
    if (warintaya_start(MODE, layers, started, sizeof started) != 0)
        fail("a layer was not started");
    random_packets(packets, count);
    plain_frame(V, rate, packets, count, again, carriers_len);
    call_job("twenty words coded", setting, "warintaya",
             (struct rounds){ROUNDS, (double)count / TWENTY, restart, code_frame, check_frame});
    call_job("late replacement", setting, "warintaya",
             (struct rounds){ROUNDS, CALLS, choose_good, replace, check_answers});
    check_coded_again();
    call_job(".. its tests alone", setting, "warintaya",
             (struct rounds){ROUNDS, CALLS, choose_refused, replace, check_answers});
    check_coded_again();
    call_job("four copies of the carriers", setting, "memcpy",
             (struct rounds){ROUNDS, 1, clear_copy, copy_carriers, check_copy});
    free(packets), free(carriers), free(again);
}

void replacement_jobs(void) {
    layer_jobs("64QAM 1/2, N 13", 1, 13);
    layer_jobs("64QAM 1/2, N 1", 1, 1);
    layer_jobs("64QAM 7/8, N 13", 5, 13);
    layer_jobs("64QAM 7/8, N 1", 5, 1);
}
