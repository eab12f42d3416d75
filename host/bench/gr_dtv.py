#!/usr/bin/python3
"""GNU Radio's gr-dtv as a peer: its Reed-Solomon code, its Viterbi decoder and its whole chains at 64QAM, on one core, by
the blocks' own work time. The time of GNU Radio's scheduler between the blocks is not counted.

Rows as in measure.h, with 0 for what the setting needs on the air, which our row of the same job says. gr-dtv is DVB-T:
the same codes, other surroundings. It does work of the same kind and size on other bits: dispersal before the parity,
and a bit interleaver of blocks. What each round gives is compared with what was sent."""
import os
import random
import sys

os.environ.setdefault("GR_CONF_PERFCOUNTERS_ON", "True")
os.environ.setdefault("GR_CONF_PERFCOUNTERS_CLOCK", "thread")
import pmt  # noqa: E402
from gnuradio import blocks, dtv, gr  # noqa: E402

ROUNDS = 5
PACKETS = 4000
CODE = (2, 8, 0x11D, 255, 239, 8, 51, 8)
CARRIERS = 6048  # of a symbol in DVB-T's mode of 8k
BEGINNING = 40  # packets after the start that aren't compared: the receiver's delays
numbers = random.Random(1)
packets = b"".join(b"\x47" + numbers.randbytes(187) for _ in range(PACKETS))


def fail(what):
    sys.exit(f"bench: gr-dtv: {what}")


def run(source, chain, sink):
    """Runs blocks over all of the source: the nanoseconds that each worked, and the bytes that came."""
    flow = gr.top_block()
    flow.connect(source, *chain, sink)
    flow.run()
    return [block.pc_work_time_total() for block in chain], bytes(sink.data())


def row(job, setting, times):
    times = sorted(times)
    print(f"{job}|{setting}|gr-dtv|word|{times[0]:.0f}|{times[len(times) // 2]:.0f}|{times[-1]:.0f}|0", flush=True)


def one_block(job, setting, data, lengths, block, right):
    """The row of one block that takes groups of eight words and gives `right`; `lengths` are a group's bytes in and out."""
    times = []
    for _ in range(ROUNDS):
        source = blocks.vector_source_b(list(data), False, lengths[0])
        worked, came = run(source, [block()], blocks.vector_sink_b(lengths[1]))
        times.append(worked[0] / PACKETS)
        if len(came) < len(right) * 9 // 10 or came != right[: len(came)]:
            fail(f"{job} gave something else")
    row(job, setting, times)


def reed_solomon():
    encoder, decoder = lambda: dtv.dvbt_reed_solomon_enc(*CODE), lambda: dtv.dvbt_reed_solomon_dec(*CODE)
    _, words = run(blocks.vector_source_b(list(packets), False, 1504), [encoder()], blocks.vector_sink_b(1632))
    one_block("parity of a packet", "", packets, (1504, 1632), encoder, words)
    for errors in (0, 4, 8):
        damaged = bytearray(words)
        for word in range(len(damaged) // 204):
            for place in numbers.sample(range(204), errors):
                damaged[204 * word + place] ^= numbers.randrange(1, 256)
        one_block("nearest codeword", f"{errors} bytes wrong", damaged, (1632, 1504), decoder, packets)


def coding_chain(rate):
    """From packets to the bits of 64QAM carriers."""
    return [
        dtv.dvbt_energy_dispersal(1),
        dtv.dvbt_reed_solomon_enc(*CODE),
        dtv.dvbt_convolutional_interleaver(136, 12, 17),
        dtv.dvbt_inner_coder(1, CARRIERS, dtv.MOD_64QAM, dtv.NH, rate),
        dtv.dvbt_bit_inner_interleaver(CARRIERS, dtv.MOD_64QAM, dtv.NH, dtv.T8k),
    ]


DECODER = 2  # the place of the Viterbi decoder in the chain below


def receiving_chain(rate):
    """From the bits of 64QAM carriers to packets."""
    return [
        dtv.dvbt_bit_inner_deinterleaver(CARRIERS, dtv.MOD_64QAM, dtv.NH, dtv.T8k),
        blocks.vector_to_stream(1, CARRIERS),
        dtv.dvbt_viterbi_decoder(dtv.MOD_64QAM, dtv.NH, rate, 768),
        dtv.dvbt_convolutional_deinterleaver(136, 12, 17),
        dtv.dvbt_reed_solomon_dec(*CODE),
        dtv.dvbt_energy_descramble(8),
    ]


def carriers_source(carriers):
    """The carriers, with the mark of a superframe's start that the receiver waits for."""
    tag = gr.tag_t()
    tag.offset, tag.key, tag.value = 0, pmt.intern("superframe_start"), pmt.from_long(0xAA)
    return blocks.vector_source_b(list(carriers), False, CARRIERS, [tag])


def code(setting, rate):
    """The row of coding; gives the carriers."""
    times, first = [], None
    for _ in range(ROUNDS):
        source = blocks.vector_source_b(list(packets), False)
        worked, carriers = run(source, coding_chain(rate), blocks.vector_sink_b(CARRIERS))
        first = first or carriers
        if carriers != first:
            fail("two rounds of coding differ")
        times.append(sum(worked) / PACKETS)
    row("code a frame", setting, times)
    return first


def came_back(came):
    """How many packets came back, of how many, from the first one after the beginning that is found among those sent."""
    count = len(came) // 188
    for first in range(BEGINNING, count):
        at = packets.find(came[188 * first : 188 * first + 188])
        if at >= 0:
            break
    else:
        fail("no packet came back")
    pairs = [(188 * i, at + 188 * (i - first)) for i in range(first, count)]
    return sum(came[a : a + 188] == packets[b : b + 188] for a, b in pairs), len(pairs)


def go_back(setting, name, rate, kept, carriers, clean):
    """The rows of receiving, and of the decoder in it; `kept` is the share of message bits among the carriers' bits."""
    words = len(carriers) * 6 * kept / 1632
    whole, decoder = [], []
    for _ in range(ROUNDS):
        worked, came = run(carriers_source(carriers), receiving_chain(rate), blocks.vector_sink_b(1))
        right, count = came_back(came)
        if clean and right != count or count < PACKETS // 2:
            fail("a packet did not come back")
        whole.append(sum(worked) / words)
        decoder.append(worked[DECODER] / words)
    row("go back", setting, whole)
    if clean:
        return
    row("best message", name, decoder)
    print(f"# {setting}, gr-dtv: {right} of {count} packets come back")


def damaged(carriers):
    """One in a hundred of the carriers' bits flipped, on average."""
    return bytes(c ^ sum((numbers.random() < 0.01) << bit for bit in range(6)) for c in carriers)


reed_solomon()
for name, rate, kept in (("1/2", dtv.C1_2, 1 / 2), ("7/8", dtv.C7_8, 7 / 8)):
    carriers = code(f"64QAM {name}, N 13", rate)
    go_back(f"64QAM {name}, N 13, clean", name, rate, kept, carriers, True)
    go_back(f"64QAM {name}, N 13, 1 % wrong", name, rate, kept, damaged(carriers), False)
