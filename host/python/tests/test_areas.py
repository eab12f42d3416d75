"""Areas of every kind are taken without copying, and those that can't be are refused."""

import array
import doctest
import mmap
import unittest

import warintaya
from warintaya import areas

from .common import SMALL, packets

try:
    import numpy
except ImportError:
    numpy = None

P, C = SMALL.layer("A").packets, SMALL.layer("A").carriers
GOOD = packets(1, P)
CODED = bytes(SMALL.coder().code("A", GOOD))


def load_tests(_loader, tests, _pattern):
    """The examples of the documentation are tests too."""
    tests.addTests(doctest.DocTestSuite(warintaya))
    tests.addTests(doctest.DocTestSuite(warintaya.station))
    return tests


class Areas(unittest.TestCase):
    """What serves as packets, as carriers, and as room."""

    def test_kinds_of_packets(self):
        with mmap.mmap(-1, len(GOOD)) as mapped:
            mapped[:] = GOOD
            for given in [GOOD, bytearray(GOOD), memoryview(GOOD), array.array("B", GOOD), mapped]:
                self.assertEqual(bytes(SMALL.coder().code("A", given)), CODED)

    def test_out_is_written_in_place(self):
        out = bytearray(C)
        self.assertIs(SMALL.coder().code("A", GOOD, out), out)
        self.assertEqual(bytes(out), CODED)
        slots = bytearray(189 * P)
        received = SMALL.receiver().back("A", CODED, slots)
        self.assertIs(received.slots.obj, slots)

    def test_nothing_is_copied(self):
        for given in [bytes(1 << 20), bytearray(1 << 20)]:
            with areas.Area(given, "given") as one, areas.Area(given, "given") as other:
                self.assertEqual(one.start, other.start)
                self.assertTrue(one.overlaps(other))
        given = bytearray(b"abc")
        with areas.Area(given, "given", True) as area:
            import ctypes

            ctypes.memset(area.start, ord("x"), 2)
        self.assertEqual(given, b"xxc")

    def test_an_area_is_given_back(self):
        given = bytearray(10)
        with areas.Area(given, "given"):
            with self.assertRaises(BufferError):
                given.append(1)
        given.append(1)

    def test_what_can_not_be_lent(self):
        wide = array.array("I", [0] * (C // 4))
        for packets_given, out in [
            (memoryview(GOOD + GOOD)[::2], None), (GOOD, bytes(C)), (GOOD, memoryview(bytearray(2 * C))[::2]), (GOOD, wide),
        ]:
            with self.assertRaises(ValueError):
                SMALL.coder().code("A", packets_given, out)
        with self.assertRaises(TypeError):
            SMALL.coder().code("A", "text")

    def test_overlapping_areas_are_refused(self):
        coder = SMALL.coder()
        both = bytearray(GOOD + bytes(C))
        view = memoryview(both)
        with self.assertRaises(ValueError):
            coder.code("A", view[:len(GOOD)], view[len(GOOD) - 1:][:C])
        coder.code("A", view[:len(GOOD)], view[len(GOOD):])
        self.assertEqual(bytes(view[len(GOOD):]), CODED)
        # two areas that are only read may be one
        old = GOOD[:188]
        coder.replace("A", bytearray(CODED), 0, old, old)

    @unittest.skipIf(numpy is None, "numpy is not installed")
    def test_arrays(self):
        frame = numpy.frombuffer(GOOD, dtype=numpy.uint8)
        coder = SMALL.coder()
        carriers = coder.code("A", frame)
        self.assertIsInstance(carriers, numpy.ndarray)
        self.assertEqual(carriers.tobytes(), CODED)
        coder.replace("A", carriers, 3, frame.reshape(P, 188)[3], packets(9, 1))
        self.assertNotEqual(carriers.tobytes(), CODED)
        out = numpy.zeros((204, C // 204), dtype=numpy.uint8)
        self.assertIs(SMALL.coder().code("A", frame.reshape(P, 188), out), out)
        self.assertEqual(out.tobytes(), CODED)
        for wrong in [numpy.zeros((C, 2), numpy.uint8)[:, 0], numpy.zeros(C, numpy.int32), numpy.asfortranarray(out)]:
            with self.assertRaises(ValueError):
                SMALL.coder().code("A", frame, wrong)
        slots = SMALL.receiver().back("A", carriers).slots
        self.assertEqual(numpy.asarray(slots).size, 189 * (P - 12))

    @unittest.skipIf(numpy is None, "numpy is not installed")
    def test_slots_in_rows(self):
        coder = SMALL.coder()
        frames = [coder.code("A", GOOD) for _ in range(2)]
        receiver, plain = SMALL.receiver(), SMALL.receiver()
        for frame in frames:
            rows = numpy.zeros((P, 189), dtype=numpy.uint8)
            received, expected = receiver.back("A", frame, rows), plain.back("A", frame)
            self.assertEqual(len(received), len(expected))
            self.assertEqual(received.slots, expected.slots)
        self.assertEqual(b"".join(bytes(one.data) for one in received), GOOD)
        self.assertEqual(rows[:, 1:].tobytes(), GOOD)
