"""Why a call was refused."""

import enum

from .library import library


class Refusal(enum.IntEnum):
    """Why a call was refused. A call gives the first that applies, and alters nothing that it was lent."""

    MODE = 1
    BITS = 2
    RATE = 3
    SEGMENTS = 4
    LENGTH = 5
    CARRIERS_LENGTH = 6
    RECORD = 7
    SYNC = 8
    NUMBER = 9
    VALUE = 10
    TOO_MANY_SEGMENTS = 12
    LAYER_UNUSED = 13

    @property
    def words(self) -> str:
        """What is wrong, in plain words without the number."""
        return library.refusal_text(self).decode()


class Refused(ValueError):
    """A call that was refused; `refusal` says why."""

    def __init__(self, refusal: Refusal):
        self.refusal = Refusal(refusal)
        super().__init__(f"{self.refusal.words} (refusal {int(self.refusal)})")


class NotReplaced(ValueError):
    """A packet of a coded frame was not read, or not replaced. Nothing has been altered."""


class NotTogether(NotReplaced):
    """The carriers and the record are not of one frame, or are damaged: `packet` is the first that doesn't come back."""

    def __init__(self, packet: int):
        self.packet = packet
        super().__init__(
            f"packet {packet} of the frame can't be read back: the carriers and the record are not of one frame"
        )


class OtherPacket(NotReplaced):
    """Another packet was coded than the one that is to be replaced: they differ first at `byte`; `found` is the number of a packet of
    the frame that is the one to be replaced, or None."""

    def __init__(self, byte: int, found):
        self.byte, self.found = byte, found
        where = "" if found is None else f", and the old one is packet {found}"
        super().__init__(f"another packet was coded there: byte {byte} differs{where}")


def answered(number: int) -> None:
    """Raises the refusal that a call has answered with, if it has."""
    if number:
        raise Refused(Refusal(number))
