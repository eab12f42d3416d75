/* The two entries that answer with texts. They stand beside the proved ones in the library, and compute nothing. */
#include "warintaya.h"

const char *warintaya_version(void) { return WARINTAYA_VERSION; }

const char *warintaya_refusal_text(uint8_t refusal)
{
    switch (refusal) {
    case WARINTAYA_DONE: return "done";
    case WARINTAYA_REFUSED_MODE: return "the mode is not 1, 2 or 3";
    case WARINTAYA_REFUSED_BITS: return "the bits of a carrier are not 2 (QPSK), 4 (16QAM) or 6 (64QAM)";
    case WARINTAYA_REFUSED_RATE: return "the rate is not 1 to 5 (1/2, 2/3, 3/4, 5/6, 7/8)";
    case WARINTAYA_REFUSED_SEGMENTS: return "the segments are not 1 to 13";
    case WARINTAYA_REFUSED_LENGTH: return "the packets, slots or words lent have the wrong length";
    case WARINTAYA_REFUSED_CARRIERS_LENGTH: return "the carriers lent are not as many as a frame has";
    case WARINTAYA_REFUSED_RECORD: return "the record is not good";
    case WARINTAYA_REFUSED_SYNC: return "a packet does not begin with 47";
    case WARINTAYA_REFUSED_NUMBER: return "the packet's number or the word's place is not in the frame";
    case WARINTAYA_REFUSED_VALUE: return "a carrier has a value that is too large for its modulation";
    case WARINTAYA_REFUSED_SEGMENTS_IN_ALL: return "the segments of all layers are more than 13";
    case WARINTAYA_REFUSED_UNUSED: return "the layer is not used";
    default: return "not a refusal";
    }
}
