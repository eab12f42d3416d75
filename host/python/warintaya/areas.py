"""Areas that are lent to the library: any object with bytes in a row, without copying them."""

import ctypes
import sys


class _Buffer(ctypes.Structure):
    """Py_buffer, as every Python 3 has it."""

    _fields_ = [
        ("start", ctypes.c_void_p),
        ("object", ctypes.py_object),
        ("length", ctypes.c_ssize_t),
        ("itemsize", ctypes.c_ssize_t),
        ("readonly", ctypes.c_int),
        ("dimensions", ctypes.c_int),
        ("format", ctypes.c_char_p),
        ("shape", ctypes.c_void_p),
        ("strides", ctypes.c_void_p),
        ("suboffsets", ctypes.c_void_p),
        ("internal", ctypes.c_void_p),
    ]


_get = ctypes.pythonapi.PyObject_GetBuffer
_get.argtypes = [ctypes.py_object, ctypes.POINTER(_Buffer), ctypes.c_int]
_release = ctypes.pythonapi.PyBuffer_Release
_release.argtypes = [ctypes.POINTER(_Buffer)]


class Area:
    """Bytes of an object for the time of a call: `start` and `length` are what a door takes."""

    def __init__(self, given, name: str, written: bool = False):
        view = memoryview(given)
        if view.itemsize != 1 or not view.c_contiguous:
            raise ValueError(f"{name} has to be bytes in a row: bytes, a bytearray, or an array of uint8 without gaps")
        if written and view.readonly:
            raise ValueError(f"{name} has to be an object that can be written")
        self.name, self.written = name, written
        self._buffer = _Buffer()
        # the view keeps the object's bytes in their place
        _get(view, ctypes.byref(self._buffer), 0)
        self.start, self.length = self._buffer.start, self._buffer.length

    def __enter__(self) -> "Area":
        return self

    def __exit__(self, *_):
        _release(ctypes.byref(self._buffer))

    @property
    def door(self):
        """Pointer and length, as the doors take them."""
        return self.start, self.length

    def overlaps(self, other: "Area") -> bool:
        """Whether they have a byte in common."""
        if not self.length or not other.length:
            return False
        return self.start < other.start + other.length and other.start < self.start + self.length


def apart(*areas: Area) -> None:
    """Areas of one call must not overlap, where one of them is written: the library may rely on it."""
    for place, one in enumerate(areas):
        for other in areas[place + 1:]:
            if (one.written or other.written) and one.overlaps(other):
                raise ValueError(f"{one.name} and {other.name} overlap")


def room(length: int, like):
    """A new area of so many bytes: a numpy array where the other area is one, else a bytearray."""
    numpy = sys.modules.get("numpy")
    if numpy is not None and isinstance(like, numpy.ndarray):
        return numpy.zeros(length, dtype=numpy.uint8)
    return bytearray(length)
