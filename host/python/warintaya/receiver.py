"""The receiving side of a station."""

import copy
import ctypes
import threading
from typing import Iterator, NamedTuple, Optional

from .areas import Area, apart, room
from .library import RECEIVING_RECORD, RECEIVING_STATE, SLOT, library
from .refusals import Refusal, Refused, answered
from .station import Layer, Station, layer_name


class Packet(NamedTuple):
    """What came out for one packet: `corrected` bytes and the 188 bytes of `data`; or neither, where it could not be had."""

    first: int
    data: Optional[memoryview]

    @property
    def corrected(self) -> Optional[int]:
        """How many bytes of its word were corrected, 0 to 8."""
        return None if self.data is None else self.first

    @property
    def lost(self) -> bool:
        """255: no codeword is within eight bytes."""
        return self.first == 255

    @property
    def wrong_start(self) -> bool:
        """254: the one codeword within eight bytes doesn't begin with 47."""
        return self.first == 254


class Received:
    """What a frame has given: slots of 189 bytes, and the packets in them."""

    def __init__(self, slots):
        self.slots = memoryview(slots)

    def __len__(self) -> int:
        return len(self.slots) // SLOT

    def __iter__(self) -> Iterator[Packet]:
        return self.packets()

    def packets(self) -> Iterator[Packet]:
        """The packets, in the order in which they were sent."""
        for place in range(0, len(self.slots), SLOT):
            first = self.slots[place]
            yield Packet(first, self.slots[place + 1:place + SLOT] if first <= 8 else None)


class Receiver:
    """Takes the frames of a station's layers, each layer's one after the other, and gives packets.

    It holds the record that goes from frame to frame. A refused call alters neither the record nor anything that was lent.
    """

    def __init__(self, station):
        self.station = Station.alone(station) if isinstance(station, Layer) else station
        self._record = self.station.record(RECEIVING_RECORD, library.receive_start)
        self._lock = threading.RLock()

    @classmethod
    def from_record(cls, record) -> "Receiver":
        """A receiver after some frames, from the record that it had then. Refusal 7 if that isn't good."""
        kept = bytearray(record)
        with Area(kept, "record", True) as area:
            tested = library.back(*area.door, 0, None, 0, None, 0, ctypes.byref(ctypes.c_uint64()))
        if tested == Refusal.RECORD:
            raise Refused(Refusal.RECORD)
        receiver = cls(Station.of_record(kept, RECEIVING_STATE))
        receiver._record = kept
        return receiver

    def __copy__(self) -> "Receiver":
        return Receiver.from_record(self.record)

    def __deepcopy__(self, _) -> "Receiver":
        return copy.copy(self)

    @property
    def record(self) -> bytes:
        """The record behind the last frames: it can be kept, and gone on from elsewhere."""
        with self._lock:
            return bytes(self._record)

    def back(self, layer, carriers, out=None) -> Received:
        """Takes the next frame of a layer, C carriers, and gives packets into P slots of 189 bytes, those of `out` if that is given.

        Packets come out late: the first frame gives P - 12, each later one P. Refused with 13, 6, 5 or 10, in this order.
        """
        name = layer_name(layer)
        settings = self.station.layer(name)
        slots = room(SLOT * settings.packets if settings else 0, carriers) if out is None else out
        given = ctypes.c_uint64()
        with self._lock, Area(self._record, "record", True) as record, Area(carriers, "carriers") as taken:
            with Area(slots, "out", True) as written:
                apart(record, taken, written)
                answered(library.back(*record.door, name, *taken.door, *written.door, ctypes.byref(given)))
        # an array may have rows: bytes are counted all the same
        return Received(memoryview(slots).cast("B")[:SLOT * given.value])
