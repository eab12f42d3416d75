"""`python3 -m warintaya`: the version, where the library is, and whether a frame comes there and back."""

import sys

from . import LIBRARY, PACKET, Layer, Station, __version__


def main() -> int:
    """Codes two frames, replaces a packet of the first late, and receives them."""
    layer = Layer("1", "qpsk", "1/2", 1)
    station = Station.alone(layer)
    packets = [bytes([0x47, number]) + bytes(PACKET - 2) for number in range(layer.packets)]
    coder, receiver = station.coder(), station.receiver()
    frame = coder.code("A", b"".join(packets))
    packets[7] = b"\x47" + b"late" + bytes(PACKET - 5)
    coder.replace("A", frame, 7, None, packets[7])
    frames = [frame, coder.code("A", b"".join(packets))]
    came = [bytes(packet.data or b"") for frame in frames for packet in receiver.back("A", frame)]
    right = came == packets
    print(f"warintaya {__version__}, {LIBRARY}: " + ("there and back" if right else "what came back is not what was sent"))
    return 0 if right else 1


sys.exit(main())
