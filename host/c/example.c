/* A station with two layers: codes three frames of each, replaces a packet of one layer late, receives both, and checks every
   answer, refused calls too. host/c/check compiles and runs it. It ends with status 0 only if everything was as it should be. */
#include "warintaya.h"

#include <stdio.h>
#include <stdlib.h>
#include <string.h>

enum { MODE = WARINTAYA_MODE_1, FRAMES = 3, LATE_FRAME = 1, USED = 2 };

/* Layer A is one segment for receivers on the move, QPSK 2/3; B has the other twelve, 64QAM 3/4; C is unused. */
static const struct warintaya_layer station[WARINTAYA_LAYERS] = {
    {WARINTAYA_QPSK, WARINTAYA_RATE_2_3, 1}, {WARINTAYA_64QAM, WARINTAYA_RATE_3_4, 12}, {0, 0, 0}};

/* What goes through one of the layers: the packets of all frames, and their carriers. */
struct stream {
    uint8_t layer;
    size_t P, C;
    uint8_t *packets, *carriers;
};

static void fail(const char *what) {
    fprintf(stderr, "example: %s\n", what);
    exit(1);
}

/* Every call of the library answers with 0 or with the number of a refusal. */
static void done(const char *what, uint8_t answer) {
    if (answer != WARINTAYA_DONE) {
        fprintf(stderr, "example: %s was refused with %u: %s\n", what, (unsigned)answer, warintaya_refusal_text(answer));
        exit(1);
    }
}

static uint8_t *room(size_t bytes) {
    uint8_t *area = calloc(bytes, 1);
    if (area == NULL) fail("no memory");
    return area;
}

/* A packet with a line of text: 0x47, a packet identifier, and the text up to byte 187. */
static void write_packet(uint8_t *packet, const char *text) {
    size_t length = strlen(text);
    memset(packet, 0xFF, WARINTAYA_PACKET);
    packet[0] = 0x47;
    packet[1] = 0x00;
    packet[2] = 0x14;
    packet[3] = 0x10;
    memcpy(packet + 4, text, length < WARINTAYA_PACKET - 4 ? length : WARINTAYA_PACKET - 4);
}

/* The stream of a layer: the sizes of its frames, and the packets of all of them. */
static struct stream stream_of(uint8_t layer) {
    struct warintaya_layer numbers = station[layer];
    struct stream stream = {layer, warintaya_packets(MODE, numbers.v, numbers.rate, numbers.segments),
                            warintaya_carriers(MODE, numbers.v, numbers.rate, numbers.segments), NULL, NULL};
    char text[64];
    if (stream.P == 0 || stream.C == 0) fail("the settings are not legal");
    stream.packets = room(FRAMES * stream.P * WARINTAYA_PACKET);
    stream.carriers = room(FRAMES * stream.C);
    for (size_t number = 0; number < FRAMES * stream.P; number++) {
        snprintf(text, sizeof text, "layer %c, packet %lu", 'A' + layer, (unsigned long)number);
        write_packet(stream.packets + number * WARINTAYA_PACKET, text);
    }
    printf("a frame of layer %c: %lu packets, %lu carriers\n", 'A' + layer, (unsigned long)stream.P, (unsigned long)stream.C);
    return stream;
}

/* How many carriers of two frames differ. */
static size_t differing(const uint8_t *one, const uint8_t *other, size_t count) {
    size_t different = 0;
    for (size_t place = 0; place < count; place++) different += one[place] != other[place];
    return different;
}

/* Codes a frame of one layer into `carriers`. */
static void code(uint8_t *record, const struct stream *stream, size_t frame, uint8_t *carriers) {
    const uint8_t *packets = stream->packets + frame * stream->P * WARINTAYA_PACKET;
    done("coding", warintaya_code(record, WARINTAYA_RECORD, stream->layer, packets, stream->P * WARINTAYA_PACKET, carriers,
                                  stream->C));
}

/* Reads the packet that was coded as `number` in the frame that was coded last, from its carriers and the record behind it: some
   next frame is coded with a copy of the record, and a fresh receiver takes both. The first gives P - 12 packets, the next the
   other twelve. */
static void coded_packet(const uint8_t *record, const struct stream *stream, const uint8_t *carriers, size_t number,
                         uint8_t *packet) {
    uint8_t copy[WARINTAYA_RECORD], receiving[WARINTAYA_RECEIVING_RECORD], *next = room(stream->C);
    uint8_t *slots = room(stream->P * WARINTAYA_SLOT);
    const uint8_t *taken = carriers;
    uint64_t given = 0, before = 0;
    memcpy(copy, record, sizeof copy);
    code(copy, stream, 0, next);
    done("starting a receiver", warintaya_receive_start(MODE, station, receiving, sizeof receiving));
    for (int frame = 0; frame < 2 && number >= before + given; frame++) {
        before += given;
        done("reading", warintaya_back(receiving, sizeof receiving, stream->layer, taken, stream->C, slots,
                                       stream->P * WARINTAYA_SLOT, &given));
        taken = next;
    }
    const uint8_t *slot = slots + (number - (size_t)before) * WARINTAYA_SLOT;
    if (slot[0] > (number == 0)) fail("carriers and record are not of one frame");
    memcpy(packet, slot + 1, WARINTAYA_PACKET);
    free(next);
    free(slots);
}

/* Replaces the last packet of a frame that is coded already, in carriers and record; `stream` has the new packet afterwards. */
static void replace_late(uint8_t *record, struct stream *stream, size_t frame) {
    uint8_t late[WARINTAYA_PACKET], coded[WARINTAYA_PACKET];
    uint8_t *out = stream->carriers + frame * stream->C, *before = room(stream->C);
    uint8_t *old = stream->packets + ((frame + 1) * stream->P - 1) * WARINTAYA_PACKET;
    coded_packet(record, stream, out, stream->P - 1, coded);
    if (memcmp(coded, old, sizeof coded) != 0) fail("another packet was coded than the one to be replaced");
    write_packet(late, "the clock, a moment later");
    memcpy(before, out, stream->C);
    done("replacing", warintaya_replace(record, WARINTAYA_RECORD, stream->layer, out, stream->C, stream->P - 1, old,
                                        WARINTAYA_PACKET, late, sizeof late));
    memcpy(old, late, sizeof late);
    printf("replaced packet %lu of frame %lu of layer %c: %lu of %lu carriers changed\n", (unsigned long)(stream->P - 1),
           (unsigned long)frame, 'A' + stream->layer, (unsigned long)differing(before, out, stream->C),
           (unsigned long)stream->C);
    free(before);
}

/* The other way: the frame of each layer coded again, from the record before them. */
static void code_again(uint8_t *before, const uint8_t *record, const struct stream *streams, size_t frame) {
    for (int layer = 0; layer < USED; layer++) {
        const struct stream *stream = &streams[layer];
        uint8_t *again = room(stream->C);
        code(before, stream, frame, again);
        if (memcmp(again, stream->carriers + frame * stream->C, stream->C) != 0)
            fail("the carriers are not those of coding again");
        free(again);
    }
    if (memcmp(before, record, WARINTAYA_RECORD) != 0) fail("the record is not that of coding again");
    printf("coding the frames again gives the same carriers and the same record\n");
}

/* Codes the frames, a frame of each layer in turn. When both layers of the late frame are coded, a packet of layer A is replaced:
   of layer B nothing changes by that. */
static void send(struct stream *streams) {
    uint8_t record[WARINTAYA_RECORD], before[WARINTAYA_RECORD], other[WARINTAYA_STATE];
    const uint8_t *layer_b = record + 1 + WARINTAYA_STATE;
    done("starting a station", warintaya_start(MODE, station, record, sizeof record));
    for (size_t frame = 0; frame < FRAMES; frame++) {
        memcpy(before, record, sizeof record);
        for (int layer = 0; layer < USED; layer++)
            code(record, &streams[layer], frame, streams[layer].carriers + frame * streams[layer].C);
        if (frame != LATE_FRAME) continue;

        memcpy(other, layer_b, sizeof other);
        replace_late(record, &streams[WARINTAYA_LAYER_A], frame);
        if (memcmp(other, layer_b, sizeof other) != 0) fail("a replacement in layer A altered layer B");
        code_again(before, record, streams, frame);
    }
}

/* Three of every 500 carriers are spoiled. */
static void spoil(const struct stream *stream) {
    size_t all = FRAMES * stream->C;
    for (size_t place = 0; place < all; place += 500)
        for (size_t near = place; near < place + 3 && near < all; near++) stream->carriers[near] ^= 3;
}

/* Holds the packets that came out to those sent, the first of which has this number. How many bytes were corrected. */
static size_t as_sent(const struct stream *stream, const uint8_t *slots, size_t given, size_t first) {
    size_t corrected = 0;
    for (size_t slot = 0; slot < given; slot++) {
        const uint8_t *content = slots + slot * WARINTAYA_SLOT, *sent = stream->packets + (first + slot) * WARINTAYA_PACKET;
        if (content[0] > 8) fail("a packet is lost");
        if (memcmp(content + 1, sent, WARINTAYA_PACKET) != 0) fail("a packet is not the one sent");
        corrected += content[0];
    }
    return corrected;
}

/* Takes the spoiled frames of both layers, first all of B and then all of A: the layers don't wait for each other. */
static void receive(const struct stream *streams) {
    uint8_t record[WARINTAYA_RECEIVING_RECORD];
    done("starting a receiver", warintaya_receive_start(MODE, station, record, sizeof record));
    for (int layer = USED - 1; layer >= 0; layer--) {
        const struct stream *stream = &streams[layer];
        uint8_t *slots = room(stream->P * WARINTAYA_SLOT);
        size_t came = 0, corrected = 0;
        spoil(stream);
        for (size_t frame = 0; frame < FRAMES; frame++) {
            uint64_t given = 0;
            done("going back", warintaya_back(record, sizeof record, stream->layer, stream->carriers + frame * stream->C,
                                              stream->C, slots, stream->P * WARINTAYA_SLOT, &given));
            if (given != (frame == 0 ? stream->P - 12 : stream->P)) fail("another number of packets came out");
            corrected += as_sent(stream, slots, (size_t)given, came);
            came += (size_t)given;
        }
        printf("layer %c: %lu packets received as they were sent, %lu bytes corrected\n", 'A' + layer, (unsigned long)came,
               (unsigned long)corrected);
        free(slots);
    }
}

/* Codes a frame that has to be refused with this number, and holds record and carriers to what they were. */
static void refused(const char *what, uint8_t number, uint8_t layer, const struct stream *stream) {
    uint8_t record[WARINTAYA_RECORD], before[WARINTAYA_RECORD], *carriers_before = room(stream->C);
    done("starting a station", warintaya_start(MODE, station, record, sizeof record));
    memcpy(before, record, sizeof record);
    memcpy(carriers_before, stream->carriers, stream->C);
    uint8_t answer = warintaya_code(record, sizeof record, layer, stream->packets, stream->P * WARINTAYA_PACKET,
                                    stream->carriers, stream->C);
    if (answer != number) fail("a call was not refused with its number");
    if (memcmp(before, record, sizeof record) != 0) fail("a refused call altered the record");
    if (memcmp(carriers_before, stream->carriers, stream->C) != 0) fail("a refused call altered the carriers");
    printf("%s is refused with %u, and nothing is altered: %s\n", what, (unsigned)answer, warintaya_refusal_text(answer));
    free(carriers_before);
}

/* A station that would have fourteen segments is not started, and its record is zeros, which no call takes. */
static void refuse_start(void) {
    static const struct warintaya_layer fourteen[WARINTAYA_LAYERS] = {{2, 2, 1}, {6, 3, 12}, {4, 1, 1}};
    static const uint8_t zeros[WARINTAYA_RECORD];
    uint8_t record[WARINTAYA_RECORD], packets[1] = {0}, carriers[1] = {0};
    uint8_t answer = warintaya_start(MODE, fourteen, record, sizeof record);
    if (answer != WARINTAYA_REFUSED_SEGMENTS_IN_ALL) fail("fourteen segments were not refused with 12");
    if (memcmp(record, zeros, sizeof record) != 0) fail("a refused start did not leave zeros");
    if (warintaya_code(record, sizeof record, WARINTAYA_LAYER_A, packets, 0, carriers, 0) != WARINTAYA_REFUSED_RECORD)
        fail("a record of zeros was not refused with 7");
    printf("fourteen segments are refused with %u, and the record is zeros\n", (unsigned)answer);
}

int main(void) {
    struct stream streams[USED];
    printf("warintaya %s\n", warintaya_version());
    for (uint8_t layer = 0; layer < USED; layer++) streams[layer] = stream_of(layer);
    send(streams);
    receive(streams);
    streams[0].packets[0] = 0x46;
    refused("a packet that does not begin with 47", WARINTAYA_REFUSED_SYNC, WARINTAYA_LAYER_A, &streams[0]);
    streams[0].packets[0] = 0x47;
    refused("a frame for layer C, which is unused,", WARINTAYA_REFUSED_UNUSED, WARINTAYA_LAYER_C, &streams[0]);
    refuse_start();
    for (int layer = 0; layer < USED; layer++) {
        free(streams[layer].packets);
        free(streams[layer].carriers);
    }
    return 0;
}
