"""ISDB-T's coding in a few lines, of gr-dtv's blocks where DVB-T does the same, and of numpy where it doesn't: docs/RULES.md
has the rules."""

import numpy
from check_common import MODULATIONS, run
from gnuradio import dtv

CODE = (2, 8, 0x11D, 255, 239, 8, 51, 8)
GROUP = 8  # packets or words that gr-dtv's blocks take at a time
ORDER = {"qpsk": dtv.MOD_QPSK, "16qam": dtv.MOD_16QAM, "64qam": dtv.MOD_64QAM}
RATE = {"1/2": dtv.C1_2, "2/3": dtv.C2_3, "3/4": dtv.C3_4, "5/6": dtv.C5_6, "7/8": dtv.C7_8}
# gr-dtv's inner coder and Viterbi decoder give blocks only when they are full: so many bytes behind the others fill the last
BEHIND = 20000


def sequence(length):
    """The first bytes of what is added to words: rule 2."""
    register, bits = [1, 0, 0, 1, 0, 1, 0, 1, 0, 0, 0, 0, 0, 0, 0], []
    for _ in range(2**15 - 1):
        bits.append(register[13] ^ register[14])
        register = [bits[-1]] + register[:-1]
    return numpy.packbits(numpy.resize(numpy.array(bits, dtype=numpy.uint8), 8 * length))


def dispersed(words, count):
    """Adds the sequence to words of frames with so many words each, or takes it off: rule 2."""
    added = sequence(204 * count).reshape(count, 204)
    added[:, 203] = 0
    return words ^ numpy.resize(added, words.size)


def with_parity(packets):
    """Packets with the parity of gr-dtv's encoder, 204 bytes each."""
    return run(packets, [dtv.dvbt_reed_solomon_enc(*CODE)], 188 * GROUP, 204 * GROUP)


def words_of(coded):
    """What is sent of packets with parity, the first byte of the next packet last: rule 1."""
    return numpy.roll(coded.reshape(-1, 204), -1, axis=1).reshape(-1)


def coded_of(words):
    """Packets with parity, of words."""
    return numpy.roll(words.reshape(-1, 204), 1, axis=1).reshape(-1)


def interleaved(words):
    """gr-dtv's byte interleaver."""
    return run(words, [dtv.dvbt_convolutional_interleaver(136, 12, 17)], 204 * GROUP, 1)


def kept(sent, modulation, rate):
    """gr-dtv's convolutional code with puncturing: the kept bits of bytes."""
    block = dtv.dvbt_inner_coder(1, 1512, ORDER[modulation], dtv.NH, RATE[rate])
    given = run(numpy.append(sent, numpy.zeros(BEHIND, dtype=numpy.uint8)), [block], 1, 1512)
    over, under = (int(part) for part in rate.split("/"))
    return bits_of(given, MODULATIONS[modulation]).reshape(-1)[:8 * sent.size * under // over]


def bits_of(values, v):
    """The bits of carriers, v in a row, line 0 first."""
    return values[:, None] >> numpy.arange(v - 1, -1, -1) & 1


def values_of(bits):
    """Carriers, of their bits in rows."""
    return (bits << numpy.arange(bits.shape[1] - 1, -1, -1)).sum(axis=1).astype(numpy.uint8)


def delays(v):
    """How many carriers each line waits: rule 6."""
    return [line * 120 // (v - 1) for line in range(v)]


def carriers_of(bits, v):
    """The bit interleaver, from the start of a stream: rule 6."""
    lines = bits.reshape(-1, v)
    out = numpy.zeros_like(lines)
    for line, delay in enumerate(delays(v)):
        out[delay:, line] = lines[:len(lines) - delay, line]
    return values_of(out)


def kept_of(carriers, v):
    """Kept bits of the carriers of a stream, but of the last 120 carriers' worth: rule 6, back."""
    bits, count = bits_of(carriers, v), len(carriers) - 120
    return numpy.stack([bits[delay:delay + count, line] for line, delay in enumerate(delays(v))], axis=1).reshape(-1)


def coded(packets, count, modulation, rate):
    """The carriers of packets, of a layer with so many packets in a frame: rules 1 to 6."""
    sent = interleaved(dispersed(words_of(with_parity(packets)), count))
    return carriers_of(kept(sent, modulation, rate), MODULATIONS[modulation])


def best_message(bits, modulation, rate):
    """gr-dtv's Viterbi decoder: the bytes of kept bits."""
    v = MODULATIONS[modulation]
    values = numpy.append(values_of(bits.reshape(-1, v)), numpy.zeros(8 * BEHIND // v, dtype=numpy.uint8))
    given = run(values, [dtv.dvbt_viterbi_decoder(ORDER[modulation], dtv.NH, RATE[rate], 768)])
    over, under = (int(part) for part in rate.split("/"))
    return given[:bits.size * over // under // 8]


def deinterleaved(sent):
    """gr-dtv's byte deinterleaver, without the eleven words of its delay."""
    whole = 204 * GROUP * (sent.size // (204 * GROUP))
    return run(sent[:whole], [dtv.dvbt_convolutional_deinterleaver(136, 12, 17)], 1, 204 * GROUP)[11 * 204:]


def corrected(coded):
    """gr-dtv's Reed-Solomon decoder: the packets of words with parity."""
    whole = coded[:204 * GROUP * (coded.size // (204 * GROUP))]
    return run(whole, [dtv.dvbt_reed_solomon_dec(*CODE)], 204 * GROUP, 188 * GROUP)
