/* Channel coding for the layers of an ISDB-T station (ARIB STD-B31, ABNT NBR 15601).

   Link with:  gcc -Ihost/c yours.c "$(host/library)"          in the repository
               gcc yours.c $(pkg-config --cflags --libs warintaya)     where host/install has put it

   WHERE IT BEGINS AND ENDS. From 188-byte transport packets to the values of a frame's carriers, and back: the Reed-Solomon
   code, energy dispersal, byte interleaving, the convolutional code with puncturing, bit interleaving; and the replacement of a
   packet in a frame that is coded already. docs/RULES.md has these rules. Not here: time and frequency interleaving, pilots,
   TMCC, OFDM, differential modulation, remultiplexing. The standard's two delay adjustments, of packets before the byte
   interleaver and of bits before the bit interleaver, are left out: a frame goes into the interleavers as it comes.

   WHAT IS LENT. Every area goes as a pointer and a length in bytes, but for the three layers of a start, which are always nine
   bytes. The library keeps no pointer beyond the call, holds no memory of its own and has no global variables: calls with
   different areas may run in different threads at the same time. The areas of one call must not overlap, and each pointer must be
   good for as many bytes as its length says: NULL goes with the length 0 alone. `given` of warintaya_back must be good too, and
   aligned as a uint64_t is; nothing else needs an alignment. The rest is tested by each function itself. warintaya_back needs some
   215 KB of stack, the others less than 50 KB.

   WHAT IS RETURNED. Functions that return a uint8_t return 0 when the work is done, or the number of the refusal (the enum below;
   warintaya_refusal_text has words for it). They test in the order that stands with each function, and return the first number
   that applies. A refused call alters no byte of any area that it was lent, with two exceptions: a refused start fills its record
   with zeros, and a refused warintaya_back puts 0 into `given`.

   A STATION sends up to three layers, A, B and C, in one mode: 1, 2 or 3. Each layer has three numbers of its own: v, the bits of
   a carrier, 2 (QPSK), 4 (16QAM) or 6 (64QAM); rate 1 to 5 for 1/2, 2/3, 3/4, 5/6, 7/8; segments 1 to 13, and the layers together
   have at most 13. A layer whose three numbers are all zero is unused. Mode and numbers give P, the packets of a layer's frame,
   and C, its carriers (warintaya_packets and warintaya_carriers).

   A CARRIER is one byte with a value below 2^v, the v bits that the mapper takes: bit line 0, which the standard calls b0, is the
   highest of them, and line v - 1 the lowest. So the value is 2 b0 + b1 for QPSK, 8 b0 + 4 b1 + 2 b2 + b3 for 16QAM, and
   32 b0 + 16 b1 + 8 b2 + 4 b3 + 2 b4 + b5 for 64QAM. Carriers stand in the order in which the segments take them, symbol after
   symbol: 96 x 2^(mode - 1) x segments of a symbol, 204 symbols of a frame.

   Each call names its layer. It does what it would do if that layer were the station's only one, and alters no byte of the other
   two: their frames may be coded, replaced and received in any order.

   A CODING RECORD is 4,462 bytes, and holds what goes from a frame to the next, of all three layers. The bytes may be copied, kept
   in a file, and used on another machine:
       byte    0  the mode
       byte    1  layer A, 1,487 bytes
       byte 1488  layer B, 1,487 bytes
       byte 2975  layer C, 1,487 bytes
   An unused layer is all zero. Of a layer that is used:
       byte    0  the mode once more, v, rate, segments
       byte    4  1,122 bytes of the byte interleaver, branch 1 first, in a branch the oldest first
       byte 1126  the last six message bits, 0 to 63, the newest is the highest bit
       byte 1127  360 bits of the bit interleaver, a byte each, line 1 first, in a line the oldest first. The first 60 x v are
                  used (QPSK 120, 16QAM 240, 64QAM 360), the others are 0
   Such a layer is good if its four numbers are legal, byte 1126 is below 64, each of the bits is 0 or 1 and the unused ones are 0.

   A RECEIVING RECORD is 13,681 bytes: the mode, then the layers A at byte 1, B at byte 4561, C at byte 9121, of 4,560 bytes each.
   An unused layer is all zero. Of a layer that is used:
       byte    0  the mode once more, v, rate, segments
       byte    4  1 once a frame has been taken, 0 before
       byte    5  1,122 bytes of the byte interleaver, branch 0 first, in a branch the oldest first
       byte 1127  360 bits of the bit interleaver, a byte each, line 0 first, in a line the oldest first; the first 60 x v
                  are used, the others are 0
       byte 1487  the last six message bits, 0 to 63, the newest is the highest bit
       byte 1488  3,072 bits of the word that the last frame left unfinished, a byte each: as many as the frame's last word has
                  kept bits, less 120 x v, are used once a frame has been taken, the others are 0
   Such a layer is good if all that is in range, unused bits are 0 and, where byte 4 is 0, everything behind it is 0 too.

   A RECORD IS GOOD if its mode is legal, each layer is either unused and all zero, or good and of the record's mode, and the
   layers have at most 13 segments in all. Every call asks this of the whole record, whichever layer it names. */
#ifndef WARINTAYA_H
#define WARINTAYA_H

#include <stddef.h>
#include <stdint.h>

#ifdef __cplusplus
extern "C" {
#endif

/* Sizes in bytes. */
enum {
    WARINTAYA_PACKET = 188,             /* a transport packet */
    WARINTAYA_WORD = 204,               /* a word of warintaya_disperse_interleave */
    WARINTAYA_SLOT = 189,               /* a slot of warintaya_back */
    WARINTAYA_STATE = 1487,             /* a layer of a coding record */
    WARINTAYA_RECORD = 4462,            /* a coding record: 1 + 3 x 1,487 */
    WARINTAYA_RECEIVING_STATE = 4560,   /* a layer of a receiving record */
    WARINTAYA_RECEIVING_RECORD = 13681  /* a receiving record: 1 + 3 x 4,560 */
};

/* The version of this header; warintaya_version tells that of the library. */
#define WARINTAYA_VERSION "0.3.0"

/* The modes, 1 to 3; v, the bits of a carrier; and the rates, 1 to 5. */
enum warintaya_mode { WARINTAYA_MODE_1 = 1, WARINTAYA_MODE_2 = 2, WARINTAYA_MODE_3 = 3 };
enum warintaya_modulation { WARINTAYA_QPSK = 2, WARINTAYA_16QAM = 4, WARINTAYA_64QAM = 6 };
enum warintaya_rate {
    WARINTAYA_RATE_1_2 = 1,
    WARINTAYA_RATE_2_3 = 2,
    WARINTAYA_RATE_3_4 = 3,
    WARINTAYA_RATE_5_6 = 4,
    WARINTAYA_RATE_7_8 = 5
};

/* The names of the layers. */
enum warintaya_name { WARINTAYA_LAYER_A = 0, WARINTAYA_LAYER_B = 1, WARINTAYA_LAYER_C = 2, WARINTAYA_LAYERS = 3 };

/* A layer as a station is started with it; all three numbers zero for one that is unused. */
struct warintaya_layer {
    uint8_t v, rate, segments;
};

/* What a call returns. */
enum warintaya_refusal {
    WARINTAYA_DONE = 0,
    WARINTAYA_REFUSED_MODE = 1,             /* mode is not 1, 2 or 3 */
    WARINTAYA_REFUSED_BITS = 2,             /* v of a layer is not 2, 4 or 6 */
    WARINTAYA_REFUSED_RATE = 3,             /* rate of a layer is not 1 to 5 */
    WARINTAYA_REFUSED_SEGMENTS = 4,         /* segments of a layer is not 1 to 13 */
    WARINTAYA_REFUSED_LENGTH = 5,           /* an area of packets, slots or a word has the wrong length */
    WARINTAYA_REFUSED_CARRIERS_LENGTH = 6,  /* the area of carriers is not C bytes long */
    WARINTAYA_REFUSED_RECORD = 7,           /* the record is not good, or its area has another length */
    WARINTAYA_REFUSED_SYNC = 8,             /* a packet does not begin with 0x47 */
    WARINTAYA_REFUSED_NUMBER = 9,           /* a packet's number or a word's place is not below P */
    WARINTAYA_REFUSED_VALUE = 10,           /* a carrier has a value of 2^v or more */
    WARINTAYA_REFUSED_SEGMENTS_IN_ALL = 12, /* the layers have more than 13 segments in all */
    WARINTAYA_REFUSED_UNUSED = 13           /* the named layer is unused, or the name is not 0, 1 or 2 */
};

/* What the first byte of a slot says, where it is not the number of bytes corrected, 0 to 8. */
enum {
    WARINTAYA_SLOT_WRONG_START = 254, /* the nearest codeword is not a packet: it does not begin with 0x47 */
    WARINTAYA_SLOT_LOST = 255         /* no codeword differs in at most eight bytes */
};

/* The version of the library, such as "0.3.0". */
const char *warintaya_version(void);

/* What a call returned, in a few words of English, without a full stop; "not a refusal" for a number that no call returns.
   The text lasts for as long as the program. */
const char *warintaya_refusal_text(uint8_t refusal);

/* P, the packets of a layer's frame, 12 to 3,276. 0 where the four numbers are not legal. */
size_t warintaya_packets(uint8_t mode, uint8_t v, uint8_t rate, uint8_t segments);

/* C, the carriers of a layer's frame and so its bytes, 19,584 to 1,018,368. 0 where the four numbers are not legal. */
size_t warintaya_carriers(uint8_t mode, uint8_t v, uint8_t rate, uint8_t segments);

/* Starts a station: writes the record before its first frames.
   `layers` are A, B and C; they are only read. A station may have no layer at all: every name is then answered with 13.
   `record`, 4,462 bytes, is yours, and lasts from frame to frame; what stood in it doesn't matter.
   Returns 0, or tests in this order: 1 mode; then of A, of B and of C, each unless it is unused, 2 v, 3 rate, 4 segments; 12 the
   sum of the segments; 7 `record_len` is not 4,462.
   Refused with 1 to 4 or 12 it fills a record of 4,462 bytes with zeros, which is not good, so that it can't be used by mistake.
   An area of another length is never written. */
uint8_t warintaya_start(uint8_t mode, const struct warintaya_layer layers[WARINTAYA_LAYERS], uint8_t *record,
                        size_t record_len);

/* Codes the next frame of a layer.
   `packets` are P packets of 188 bytes one behind the other, each beginning with 0x47; they are only read.
   `carriers` gets the C carriers of the frame, all of them; what stood there doesn't matter.
   In `record` the named layer is moved on to the end of the frame: its next frame is coded with it. Keep it until then, with the
   carriers, if a packet may still have to be replaced.
   Returns 0, or tests in this order: 7 record, 13 the layer is unused, 5 `packets_len` is not 188 x P, 6 `carriers_len` is not C,
   8 a packet's first byte.
   A refused call leaves record and carriers as they were. */
uint8_t warintaya_code(uint8_t *record, size_t record_len, uint8_t layer, const uint8_t *packets, size_t packets_len,
                       uint8_t *carriers, size_t carriers_len);

/* Replaces one packet of the frame that was coded last in its layer, without the other packets. Frames of other layers may have
   been coded since.
   `carriers` are the C carriers that warintaya_code gave for the frame, and in `record` the named layer is as it left it. Both are
   altered: they are then what coding the frame again with the new packet would have given, so the layer's next frame has to be
   coded from this record.
   `number` is the packet's number in the layer's frame, from 0 on. `old` is the packet that was coded there and `new_` the one
   that is to stand there, 188 bytes each; they are only read.
   `old` has to be the very packet that was coded. This call doesn't look: another one gives a frame whose parity is correct and
   whose packet nobody has written. Who isn't sure can read the packet first, since carriers and record together hold it: code any
   frame with a copy of the record, let a fresh receiver (warintaya_receive_start) take the carriers and then that frame, and the
   first P packets that it gives are those of the frame, with no byte corrected but perhaps one in the first. host/c/example.c does
   so, and so do the command and the Rust crate before each replacement.
   Returns 0, or tests in this order: 7 record, 13 the layer is unused, 6 `carriers_len` is not C, 5 `old_len` or `new_len` is not
   188, 9 `number` is P or more, 10 a carrier's value, 8 the first byte of `old` or `new_`.
   A refused call leaves record and carriers as they were. */
uint8_t warintaya_replace(uint8_t *record, size_t record_len, uint8_t layer, uint8_t *carriers, size_t carriers_len,
                          size_t number, const uint8_t *old, size_t old_len, const uint8_t *new_, size_t new_len);

/* Disperses one word and byte-interleaves it, in one walk: adds the sequence of its place in the frame to bytes 0 to 202, and
   `out` gets the 204 bytes that come out of the twelve branches when the dispersed word goes in.
   `place` is the word's number in the frame, from 0 on. `word` is read, `out` is written, 204 bytes each. In the named layer of
   `record` the bytes of the interleaver are moved on; the rest of the record stays.
   Returns 0, or tests in this order: 7 record, 13 the layer is unused, 5 `word_len` or `out_len` is not 204, 9 `place` is P or
   more.
   A refused call leaves record and `out` as they were. */
uint8_t warintaya_disperse_interleave(uint8_t *record, size_t record_len, uint8_t layer, size_t place, const uint8_t *word,
                                      size_t word_len, uint8_t *out, size_t out_len);

/* Starts a receiver: writes the record before its first frames. As warintaya_start, but that `record` is 13,681 bytes. */
uint8_t warintaya_receive_start(uint8_t mode, const struct warintaya_layer layers[WARINTAYA_LAYERS], uint8_t *record,
                                size_t record_len);

/* Takes the next frame that was received of a layer and gives packets.
   `carriers` are the C carriers of the frame; they are only read.
   `slots` has room for P slots of 189 bytes. The first `given` of them are written: the number of bytes that were corrected, 0 to
   8, and the packet of 188 bytes; or 254 or 255 (the enum above), and 188 zeros: this one packet could not be had, and the call
   is done all the same. Slots behind those given stay as they were.
   `given` gets the number of packets. Packets come out late, in the order in which they were sent: a layer's first frame gives
   P - 12, each later one P. The last twelve packets of a stream come out only when a further frame is taken.
   In `record` the named layer is moved on: its next frame is taken with it.
   Returns 0, or tests in this order: 7 record, 13 the layer is unused, 6 `carriers_len` is not C, 5 `slots_len` is not 189 x P,
   10 a carrier's value.
   A refused call leaves record and slots as they were, and puts 0 into `given`. */
uint8_t warintaya_back(uint8_t *record, size_t record_len, uint8_t layer, const uint8_t *carriers, size_t carriers_len,
                       uint8_t *slots, size_t slots_len, uint64_t *given);

#ifdef __cplusplus
}
#endif

#endif
