"""Settings by their names, the sizes of frames, and the layers of a station."""

import ctypes
import enum
from typing import Dict, Iterator, Mapping, Optional, Tuple

from .library import CODING_RECORD, library
from .refusals import Refusal, Refused, answered


class _Named(enum.IntEnum):
    """A setting with a name and a number."""

    @property
    def text(self) -> str:
        """Its name, as it is shown."""
        return self.name

    @classmethod
    def parse(cls, text: str):
        """The one of this name, with letters of either case. Others are refused with their number."""
        for one in cls:
            if one.text.lower() == str(text).lower():
                return one
        raise Refused(_REFUSALS[cls])


class Mode(_Named):
    """The mode of a station."""

    ONE = 1
    TWO = 2
    THREE = 3

    @property
    def text(self) -> str:
        return str(int(self))


class Modulation(_Named):
    """How the bits of a carrier are sent; its number is v, how many there are."""

    QPSK = 2
    QAM16 = 4
    QAM64 = 6

    @property
    def text(self) -> str:
        return {2: "QPSK", 4: "16QAM", 6: "64QAM"}[int(self)]


class Rate(_Named):
    """The rate of the convolutional code."""

    ONE_HALF = 1
    TWO_THIRDS = 2
    THREE_QUARTERS = 3
    FIVE_SIXTHS = 4
    SEVEN_EIGHTHS = 5

    @property
    def text(self) -> str:
        return ["1/2", "2/3", "3/4", "5/6", "7/8"][int(self) - 1]


class LayerName(_Named):
    """One of the three layers of a station."""

    A = 0
    B = 1
    C = 2


_REFUSALS = {Mode: Refusal.MODE, Modulation: Refusal.BITS, Rate: Refusal.RATE, LayerName: Refusal.LAYER_UNUSED}


def _number(setting, given) -> int:
    """The number of a setting that is given by name, text or number, as a byte; what is none is refused later or here."""
    if isinstance(given, str):
        return int(setting.parse(given))
    return int(given) if 0 <= int(given) <= 255 else 255


class Layer:
    """The settings of a layer, legal ones only, and the sizes of its frames."""

    def __init__(self, mode, modulation, rate, segments: int):
        settings = [_number(Mode, mode), _number(Modulation, modulation), _number(Rate, rate)]
        settings.append(segments if 0 <= segments <= 255 else 255)
        # all zero it would be a layer that isn't used
        tried = settings[1:] if any(settings[1:]) else [0, 0, 1]
        _start(settings[0], [tried, (0, 0, 0), (0, 0, 0)])
        self.mode, self.modulation, self.rate = Mode(settings[0]), Modulation(settings[1]), Rate(settings[2])
        self.segments = settings[3]

    @property
    def numbers(self) -> Tuple[int, int, int, int]:
        """Mode, v, rate and segments."""
        return int(self.mode), int(self.modulation), int(self.rate), self.segments

    @property
    def packets(self) -> int:
        """P, the packets of a frame."""
        return library.packets(*self.numbers)

    @property
    def carriers(self) -> int:
        """C, the carriers of a frame, and so its bytes."""
        return library.carriers(*self.numbers)

    def __eq__(self, other) -> bool:
        return isinstance(other, Layer) and self.numbers == other.numbers

    def __hash__(self) -> int:
        return hash(self.numbers)

    def __repr__(self) -> str:
        mode, _, _, segments = self.numbers
        return f"Layer({mode}, {self.modulation.text!r}, {self.rate.text!r}, {segments})"


def _start(mode: int, layers, length: int = CODING_RECORD, door=None) -> bytearray:
    """The record of a station before its first frames."""
    record = bytearray(length)
    area = (ctypes.c_uint8 * length).from_buffer(record)
    settings = (ctypes.c_uint8 * 9)(*[number for layer in layers for number in layer])
    answered((door or library.start)(mode, settings, area, length))
    return record


class Station:
    """Up to three layers of one mode, with at most 13 segments in all.

    >>> station = Station("1", {"A": ("qpsk", "2/3", 1), "B": ("64qam", "3/4", 12)})
    >>> station.layer("B").packets
    648
    """

    def __init__(self, mode, layers: Mapping):
        self._mode = _number(Mode, mode)
        numbers = [(0, 0, 0)] * 3
        for name, (modulation, rate, segments) in layers.items():
            settings = (_number(Modulation, modulation), _number(Rate, rate), segments if 0 <= segments <= 255 else 255)
            numbers[layer_name(name)] = settings
        self._numbers = numbers
        _start(self._mode, numbers)
        self._layers: Dict[LayerName, Layer] = {
            name: Layer(self._mode, *numbers[name]) for name in LayerName if any(numbers[name])
        }

    @classmethod
    def alone(cls, layer: Layer) -> "Station":
        """A station with layer A alone."""
        return cls(layer.mode, {LayerName.A: (layer.modulation, layer.rate, layer.segments)})

    @classmethod
    def of_record(cls, record: bytes, state: int) -> "Station":
        """The layers of a good record, whose states have so many bytes each."""
        numbers = {name: tuple(record[2 + state * name:][:3]) for name in LayerName}
        return cls(record[0], {name: settings for name, settings in numbers.items() if any(settings)})

    @property
    def mode(self) -> Mode:
        """The mode."""
        return Mode(self._mode)

    def layer(self, name) -> Optional[Layer]:
        """The settings of a layer, or None if it isn't used."""
        return self._layers.get(layer_name(name))

    def used(self) -> Iterator[Tuple[LayerName, Layer]]:
        """The layers that are used, in their order."""
        return iter(sorted(self._layers.items()))

    def record(self, length: int = CODING_RECORD, door=None) -> bytearray:
        """The record before the first frames, for coding or for receiving."""
        return _start(self._mode, self._numbers, length, door)

    def coder(self):
        """The sending side."""
        from .coder import Coder

        return Coder(self)

    def receiver(self):
        """The receiving side."""
        from .receiver import Receiver

        return Receiver(self)

    def __eq__(self, other) -> bool:
        return isinstance(other, Station) and (self._mode, self._numbers) == (other._mode, other._numbers)

    def __hash__(self) -> int:
        return hash((self._mode, tuple(self._numbers)))

    def __repr__(self) -> str:
        layers = {
            name.name: (layer.modulation.text, layer.rate.text, layer.segments) for name, layer in self.used()
        }
        return f"Station({self._mode}, {layers})"


def layer_name(given) -> LayerName:
    """A layer by its letter or number. One that there isn't is refused as one that isn't used."""
    if isinstance(given, str):
        return LayerName.parse(given)
    try:
        return LayerName(given)
    except ValueError:
        raise Refused(Refusal.LAYER_UNUSED) from None
