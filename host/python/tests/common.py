"""What the tests share: stations, and packets by seed."""

import random

from warintaya import PACKET, Station

SMALL = Station("1", {"A": ("qpsk", "1/2", 1)})
THREE = Station("1", {"A": ("qpsk", "2/3", 3), "B": ("16qam", "3/4", 1), "C": ("64qam", "7/8", 2)})
STATIONS = [SMALL, THREE, Station(2, {"B": (4, 2, 1)}), Station("3", {"A": ("qpsk", "7/8", 1), "C": ("qpsk", "1/2", 1)})]


def packets(seed, count):
    """So many random packets."""
    source = random.Random(seed)
    return b"".join(b"\x47" + source.randbytes(PACKET - 1) for _ in range(count))


def packet(frame, number):
    """One of them."""
    return bytes(frame[PACKET * number:][:PACKET])


def with_packet(frame, number, new):
    """The frame with another packet in one place."""
    return frame[:PACKET * number] + new + frame[PACKET * (number + 1):]
