/* Single stages of the chain, for the benchmark and for checks from outside, from libstages.a (`rt lib` in crates/stages).
   Slices go as a pointer and a length. Each answers for every input; a wrong length is refused and nothing is altered. */
#pragma once
#include <stddef.h>
#include <stdint.h>

/* The 16 parity bytes of the 188 bytes of a message. 0, or 5 for a wrong length. */
uint8_t stages_parity(const uint8_t *message, size_t message_len, uint8_t *parity, size_t parity_len);

/* The 204 bytes of a word become the one codeword that differs in at most eight. `*corrected` is how many differed, or 255
   where there is none and the word stays as it was. 0, or 5 for a wrong length (then `*corrected` is 0). */
uint8_t stages_correct(uint8_t *word, size_t word_len, uint8_t *corrected);

/* The slot of 189 bytes of a received word, from its bytes 0 to 202 with the dispersal taken off: the number of bytes
   corrected and the packet, or 254 or 255 and zeros. 0, or 5 for a wrong length. */
uint8_t stages_slot(const uint8_t *received, size_t received_len, uint8_t *slot, size_t slot_len);

/* The parities of a run of packets: 16 bytes for each 188. 0, or 5 for a wrong length. */
uint8_t stages_parities(const uint8_t *packets, size_t packets_len, uint8_t *parities, size_t parities_len);

/* The best message of received pairs from a register: of all messages the one with the fewest disagreements, of equals the
   one with 0 at the first bit where they differ, a byte 0 or 1 for each bit. A pair is 3 x + y, a digit the bit received or
   2 where none was. The table is lent for the work, 64 bytes for each pair and 64 more; there are at most 1,728 pairs. 0, or
   7 for a register of 64 or more, 5 for lengths that do not fit, 10 for a pair of 9 or more. */
uint8_t stages_best_message(const uint8_t *pairs, size_t pairs_len, uint8_t register_, uint8_t *table, size_t table_len,
                            uint8_t *message, size_t message_len);

/* The next frame of a layer alone, without a record: `state` is the 1,487 bytes of a coding record's layer, the rest as in
   `warintaya_code` of warintaya.h. 0, or 7, 5, 6, 8. */
uint8_t stages_code(uint8_t *state, size_t state_len, const uint8_t *packets, size_t packets_len, uint8_t *carriers,
                    size_t carriers_len);

/* The same for going back: `state` is the 4,560 bytes of a receiving record's layer, the rest as in `warintaya_back`. 0, or
   7, 6, 5, 10. */
uint8_t stages_back(uint8_t *state, size_t state_len, const uint8_t *carriers, size_t carriers_len, uint8_t *slots,
                    size_t slots_len, uint64_t *given);

/* `warintaya_code` and `warintaya_back` once more, compiled beside the two above: what a record costs is then no matter of
   how two libraries were laid out. */
uint8_t stages_code_in_record(uint8_t *record, size_t record_len, uint8_t layer, const uint8_t *packets,
                              size_t packets_len, uint8_t *carriers, size_t carriers_len);
uint8_t stages_back_in_record(uint8_t *record, size_t record_len, uint8_t layer, const uint8_t *carriers,
                              size_t carriers_len, uint8_t *slots, size_t slots_len, uint64_t *given);
