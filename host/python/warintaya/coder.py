"""The sending side of a station."""

import copy
import threading

from .areas import Area, apart, room
from .library import CODING_RECORD, CODING_STATE, PACKET, library
from .receiver import Receiver
from .refusals import NotTogether, OtherPacket, Refusal, Refused, answered
from .station import Layer, Station, layer_name


class Coder:
    """Codes the frames of a station's layers, each layer's one after the other, and replaces packets late.

    It holds the record that goes from frame to frame. A refused call alters neither the record nor anything that was lent.
    """

    def __init__(self, station):
        self.station = Station.alone(station) if isinstance(station, Layer) else station
        self._record = self.station.record(CODING_RECORD)
        self._lock = threading.RLock()

    @classmethod
    def from_record(cls, record) -> "Coder":
        """A coder after some frames, from the record that it had then. Refusal 7 if that isn't good."""
        kept = bytearray(record)
        with Area(kept, "record", True) as area:
            tested = library.code(*area.door, 0, None, 0, None, 0)
        if tested == Refusal.RECORD:
            raise Refused(Refusal.RECORD)
        coder = cls(Station.of_record(kept, CODING_STATE))
        coder._record = kept
        return coder

    def __copy__(self) -> "Coder":
        return Coder.from_record(self.record)

    def __deepcopy__(self, _) -> "Coder":
        return copy.copy(self)

    @property
    def record(self) -> bytes:
        """The record behind the last frames: it can be kept, and gone on from elsewhere."""
        with self._lock:
            return bytes(self._record)

    def code(self, layer, packets, out=None):
        """Codes the next frame of a layer, P packets of 188 bytes, into C carriers, those of `out` if that is given.

        Refused with 13, 5, 6 or 8, in this order.
        """
        name = layer_name(layer)
        settings = self.station.layer(name)
        carriers = room(settings.carriers if settings else 0, packets) if out is None else out
        with self._lock, Area(self._record, "record", True) as record, Area(packets, "packets") as taken:
            with Area(carriers, "out", True) as written:
                apart(record, taken, written)
                answered(library.code(*record.door, name, *taken.door, *written.door))
        return carriers

    def coded_packets(self, layer, carriers) -> bytes:
        """The P packets of the frame that was coded last in a layer, one behind the other, from its carriers and the record behind it.

        A copy of the record codes any next frame, and a fresh receiver takes both: what was coded comes back with no byte
        corrected, but for one at most in packet 0.
        """
        name = layer_name(layer)
        settings = self.station.layer(name)
        if settings is None:
            raise Refused(Refusal.LAYER_UNUSED)
        any_packets = (b"\x47" + bytes(PACKET - 1)) * settings.packets
        next_frame = copy.copy(self).code(name, any_packets)
        receiver = Receiver(self.station)
        came = list(receiver.back(name, carriers)) + list(receiver.back(name, next_frame))
        for number, packet in enumerate(came[:settings.packets]):
            if packet.data is None or packet.corrected > (number == 0):
                raise NotTogether(number)
        return b"".join(packet.data for packet in came[:settings.packets])

    def coded_packet(self, layer, carriers, number: int) -> bytes:
        """The packet that was coded as `number` in the frame that was coded last in a layer."""
        settings = self.station.layer(layer)
        if settings is None:
            raise Refused(Refusal.LAYER_UNUSED)
        if memoryview(carriers).nbytes != settings.carriers:
            raise Refused(Refusal.CARRIERS_LENGTH)
        if not 0 <= number < settings.packets:
            raise Refused(Refusal.NUMBER)
        return self.coded_packets(layer, carriers)[PACKET * number:][:PACKET]

    def replace(self, layer, carriers, number: int, old, new) -> None:
        """Replaces packet `number` of the frame that was coded last in a layer, in its carriers and in the record behind it: both are
        then as if the frame had been coded with `new`.

        It reads first which packet was coded there, and refuses an `old` that is another (OtherPacket), or None to take the one
        that was coded. Carriers and a record that are not of one frame are refused too (NotTogether).
        """
        # nobody else may code a frame between the look and the replacement
        with self._lock:
            if old is None:
                old = self.coded_packet(layer, carriers, number)
            else:
                # what is refused in any case is refused first
                copy.copy(self).replace_unchecked(layer, bytearray(carriers), number, old, new)
                self._compare(self.coded_packets(layer, carriers), number, bytes(old))
            self.replace_unchecked(layer, carriers, number, old, new)

    @staticmethod
    def _compare(packets: bytes, number: int, old: bytes) -> None:
        """Refuses an old packet that is not the one of this number."""
        coded = packets[PACKET * number:][:PACKET]
        if coded != old:
            byte = next(place for place in range(PACKET) if coded[place] != old[place])
            numbers = range(len(packets) // PACKET)
            found = (one for one in numbers if packets[PACKET * one:][:PACKET] == old)
            raise OtherPacket(byte, next(found, None))

    def replace_unchecked(self, layer, carriers, number: int, old, new) -> None:
        """As `replace`, without a look at what was coded: `old` has to be that very packet.

        Refused with 13, 6, 5, 9, 10 or 8, in this order.
        """
        name = layer_name(layer)
        # a number that no frame has is refused by the door
        place = number if 0 <= number < 2**32 else 2**32
        with self._lock, Area(self._record, "record", True) as record, Area(carriers, "carriers", True) as altered:
            with Area(old, "old") as old_packet, Area(new, "new") as new_packet:
                apart(record, altered, old_packet, new_packet)
                answered(
                    library.replace(*record.door, name, *altered.door, place, *old_packet.door, *new_packet.door)
                )
