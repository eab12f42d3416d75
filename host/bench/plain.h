/* The rules of the chain done plainly and slowly, a bit at a time, to compare with. A bit is a byte 0 or 1. They share
   nothing with the library but the words of the standard. */
#pragma once
#include <stddef.h>
#include <stdint.h>

enum { WORD = 204, PACKET = 188, PARITY = 16, WORD_BITS = 8 * WORD };

/* What of message bit i is kept, by rule 5. */
int keeps_x(uint8_t rate, size_t i);
int keeps_y(uint8_t rate, size_t i);

/* Rule 1: the parity of a packet. */
void plain_parity(const uint8_t *packet, uint8_t *parity);

/* Rule 2: the first bytes of the sequence that is added to a frame. Byte 203 of each word is 0, since nothing is
   added there. */
void plain_sequence(uint8_t *sequence, size_t length);

/* Rule 3: byte j of word p, of so many words from a memory of zeros, comes out at place j of word p + (j mod 12). */
void plain_interleave(const uint8_t *words, size_t count, uint8_t *out);

/* Rules 4 and 5 from register 0: the kept bits of message bits, and how many. */
size_t plain_kept(uint8_t rate, const uint8_t *message, size_t length, uint8_t *kept);

/* Rule 6 from empty lines: so many carriers. */
void plain_carriers(uint8_t v, const uint8_t *kept, size_t count, uint8_t *carriers, size_t carriers_len);

/* Rules 1 to 6: the carriers of the first frame of a layer. */
void plain_frame(uint8_t v, uint8_t rate, const uint8_t *packets, size_t count, uint8_t *carriers, size_t carriers_len);

/* Of all messages from register 0 the one with the fewest disagreements; of equals the one with 0 at the first bit
   where they differ. A pair is 3 x + y, a digit the bit received or 2 where none was. At most WORD_BITS pairs. */
void plain_best_message(const uint8_t *pairs, size_t length, uint8_t *message);

/* How many of the received bits a message from register 0 disagrees with. */
size_t disagreements(const uint8_t *pairs, const uint8_t *message, size_t length);

void bits_of(const uint8_t *bytes, size_t length, uint8_t *bits); /* highest first */
