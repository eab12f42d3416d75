/* The libraries that a user would pick instead, behind the forms that the benchmark times. Each file is compiled where
   its library is installed: WITH_LIBFEC for libfec_peer.c, WITH_VOLK for volk_peer.c, both for volk_back.c. */
#pragma once
#include <stddef.h>
#include <stdint.h>

/* libfec's Reed-Solomon code: the parity of a packet; a word mended in place, and how many bytes were wrong, or -1. */
void libfec_parity(const uint8_t *packet, uint8_t *parity);
int libfec_correct(uint8_t *word);

/* Received bits for the two decoders below: 0 or 255, or 128 where none was received; X and Y of each message bit. They
   decode a word from a register and give the 204 bytes of its message. A decoder's register has its newest bit lowest.
   libfec has to be told the register behind the word; VOLK's metrics are at hand, so the best one is searched and
   given. */
void libfec_message(const uint8_t *received, unsigned register_, unsigned end, uint8_t *bytes);
unsigned volk_message(const uint8_t *received, unsigned register_, uint8_t *bytes);

/* The whole way back for the first frame of a 64QAM layer, by VOLK's decoder and libfec's Reed-Solomon code, with plain
   C between them: count - 12 slots as `warintaya_back` fills them. */
void volk_back(uint8_t rate, const uint8_t *carriers, size_t carriers_len, size_t count, uint8_t *slots);
