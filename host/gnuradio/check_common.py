"""What the checks share: packets, runs of blocks, and what is told."""

import random
import sys

import numpy
from gnuradio import blocks, gr

# modulations and rates by the names that the module takes, and the numbers of a carrier's bits
MODULATIONS = {"qpsk": 2, "16qam": 4, "64qam": 6}
RATES = ["1/2", "2/3", "3/4", "5/6", "7/8"]


def fail(what):
    """Ends the check."""
    sys.exit(f"gnuradio: {what}")


def same(what, one, other):
    """Holds two arrays of bytes to each other, and gives how many bytes these are."""
    one, other = as_array(one), as_array(other)
    if one.shape != other.shape:
        fail(f"{what}: {one.size} bytes are not {other.size}")
    if (one != other).any():
        fail(f"{what}: byte {int(numpy.argmax(one != other))} of {one.size} differs")
    return one.size


def as_array(given):
    """Bytes as an array, without rows."""
    return numpy.frombuffer(bytes(given), dtype=numpy.uint8) if not isinstance(given, numpy.ndarray) else given.reshape(-1)


def packets(seed, count):
    """So many random packets, one behind the other."""
    source = random.Random(seed)
    return as_array(b"".join(b"\x47" + source.randbytes(187) for _ in range(count)))


def run(data, chain, taken=1, given=1, tags=()):
    """Runs blocks over bytes, with items of so many bytes at both ends, and gives what comes out."""
    flow = gr.top_block()
    sink = blocks.vector_sink_b(given)
    flow.connect(blocks.vector_source_b(data.tolist(), False, taken, tags), *chain, sink)
    flow.run()
    return numpy.array(sink.data(), dtype=numpy.uint8)
