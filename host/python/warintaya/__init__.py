"""Channel coding for the layers of an ISDB-T station, by a proved library: packets to carriers, back again, and packets replaced late.

>>> from warintaya import Station
>>> station = Station("1", {"A": ("qpsk", "2/3", 1), "B": ("64qam", "3/4", 12)})
>>> packets = (b"\\x47" + bytes(187)) * station.layer("A").packets
>>> coder, receiver = station.coder(), station.receiver()
>>> frames = [coder.code("A", packets) for _ in range(2)]
>>> coder.replace("A", frames[1], 7, None, b"\\x47" + b"late" + bytes(183))
>>> [len(receiver.back("A", carriers)) for carriers in frames]
[4, 16]

Whatever has bytes in a row serves as packets, carriers and room for what comes out, and is not copied: bytes, bytearray, memoryview,
mmap, numpy arrays of uint8. The library is found beside an installed module, in the repository's `built` folder, or where the
environment variable WARINTAYA_LIBRARY says. A coder or receiver may be used by one thread at a time; others wait.
"""

from .coder import Coder
from .library import PACKET, SLOT, VERSION as __version__, library as _library
from .receiver import Packet, Received, Receiver
from .refusals import NotReplaced, NotTogether, OtherPacket, Refusal, Refused
from .station import Layer, LayerName, Mode, Modulation, Rate, Station

LIBRARY = _library.place

__all__ = [
    "Coder", "LIBRARY", "Layer", "LayerName", "Mode", "Modulation", "NotReplaced", "NotTogether", "OtherPacket", "PACKET",
    "Packet", "Rate", "Received", "Receiver", "Refusal", "Refused", "SLOT", "Station",
]
