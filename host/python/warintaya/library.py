"""Finds the shared library, and declares its entries as host/c/warintaya.h has them."""

import ctypes
import os
import platform
from pathlib import Path

VERSION = "0.3.0"

PACKET = 188
SLOT = 189
CODING_STATE = 1487
CODING_RECORD = 1 + 3 * CODING_STATE
RECEIVING_STATE = 4560
RECEIVING_RECORD = 1 + 3 * RECEIVING_STATE

_NAME = "libwarintaya.so.0"


def _places():
    """Where the library may stand, in the order in which it is looked for."""
    named = os.environ.get("WARINTAYA_LIBRARY")
    if named:
        return [named]
    here = Path(__file__).resolve()
    # an installed tree: PREFIX/lib/python3.x/dist-packages/warintaya
    installed = [folder / _NAME for folder in here.parents if folder.name.startswith("lib")]
    # the repository: host/python/warintaya
    built = [folder / "built" / platform.machine() / _NAME for folder in list(here.parents)[3:4]]
    return [place for place in installed + built if place.is_file()] + [_NAME]


def _load():
    tried = []
    for place in _places():
        try:
            return ctypes.CDLL(str(place)), str(place)
        except OSError as why:
            tried.append(f"{place} ({why})")
    raise ImportError(
        "the library of warintaya is not found: " + "; ".join(tried)
        + ". host/library --shared makes it, host/install puts it where it is found, and the environment variable"
        " WARINTAYA_LIBRARY names another place"
    )


_BYTE = ctypes.c_uint8
_SIZE = ctypes.c_size_t
_AREA = [ctypes.c_void_p, _SIZE]
_SETTINGS = [_BYTE, _BYTE, _BYTE, _BYTE]
_RECORD = _AREA + [_BYTE]

# the entries: what they return, and what they take
_ENTRIES = {
    "version": (ctypes.c_char_p, []),
    "refusal_text": (ctypes.c_char_p, [_BYTE]),
    "packets": (_SIZE, _SETTINGS),
    "carriers": (_SIZE, _SETTINGS),
    "start": (_BYTE, [_BYTE, ctypes.c_void_p] + _AREA),
    "code": (_BYTE, _RECORD + _AREA + _AREA),
    "replace": (_BYTE, _RECORD + _AREA + [_SIZE] + _AREA + _AREA),
    "receive_start": (_BYTE, [_BYTE, ctypes.c_void_p] + _AREA),
    "back": (_BYTE, _RECORD + _AREA + _AREA + [ctypes.POINTER(ctypes.c_uint64)]),
}


class _Library:
    """The entries by their names, without what all names begin with."""

    def __init__(self):
        library, self.place = _load()
        for name, (returned, taken) in _ENTRIES.items():
            entry = getattr(library, "warintaya_" + name)
            entry.restype, entry.argtypes = returned, taken
            setattr(self, name, entry)
        there = self.version().decode()
        if there != VERSION:
            raise ImportError(f"{self.place} is version {there}, and this module is for version {VERSION}")


library = _Library()
