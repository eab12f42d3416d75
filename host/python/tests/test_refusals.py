"""Each refusal has its number, and alters nothing."""

import unittest

from warintaya import Coder, Layer, Receiver, Refusal, Refused, Station

from .common import SMALL, packets

P, C = SMALL.layer("A").packets, SMALL.layer("A").carriers
GOOD = packets(1, P)


class Refusals(unittest.TestCase):
    """By their numbers, in their order."""

    def refused(self, refusal, call, *given):
        with self.assertRaises(Refused) as caught:
            call(*given)
        self.assertEqual(caught.exception.refusal, refusal)
        self.assertIn(f"(refusal {int(refusal)})", str(caught.exception))

    def test_settings(self):
        for given, refusal in [
            ((0, 2, 1, 1), Refusal.MODE), (("4", 2, 1, 1), Refusal.MODE), ((1, 3, 1, 1), Refusal.BITS),
            ((1, "8psk", 1, 1), Refusal.BITS), ((1, 2, 6, 1), Refusal.RATE), ((1, 2, "9/10", 1), Refusal.RATE),
            ((1, 2, 1, 0), Refusal.SEGMENTS), ((1, 2, 1, 14), Refusal.SEGMENTS), ((1, 2, 1, 300), Refusal.SEGMENTS),
            ((1, 0, 0, 0), Refusal.BITS), ((259, 2, 1, 1), Refusal.MODE),
        ]:
            self.refused(refusal, Layer, *given)
        self.refused(Refusal.TOO_MANY_SEGMENTS, Station, 1, {"A": (2, 1, 7), "B": (2, 1, 7)})
        self.refused(Refusal.LAYER_UNUSED, Station, 1, {"D": (2, 1, 7)})

    def test_coding(self):
        coder = SMALL.coder()
        record = coder.record
        carriers = bytearray(b"\x05" * C)
        headless = b"\x46" + GOOD[1:]
        for given, refusal in [
            (("B", GOOD, carriers), Refusal.LAYER_UNUSED), ((7, GOOD, carriers), Refusal.LAYER_UNUSED),
            (("A", headless[:-1], carriers[1:]), Refusal.LENGTH), (("A", b"", carriers[1:]), Refusal.LENGTH),
            (("A", headless, carriers[1:]), Refusal.CARRIERS_LENGTH), (("A", headless, carriers), Refusal.SYNC),
        ]:
            kept = bytes(given[2])
            self.refused(refusal, coder.code, *given)
            self.assertEqual((bytes(given[2]), coder.record), (kept, record))

    def test_replacing(self):
        coder = SMALL.coder()
        carriers = coder.code("A", GOOD)
        record = coder.record
        large = bytearray(carriers)
        large[3] = 4
        old, headless = GOOD[:188], b"\x46" + GOOD[1:188]
        for call in [coder.replace, coder.replace_unchecked]:
            for given, refusal in [
                (("C", large, P, old[1:], headless), Refusal.LAYER_UNUSED),
                (("A", large[1:], P, old[1:], headless), Refusal.CARRIERS_LENGTH),
                (("A", large, P, old[1:], headless), Refusal.LENGTH), (("A", large, P, old, headless[1:]), Refusal.LENGTH),
                (("A", large, P, old, headless), Refusal.NUMBER), (("A", large, 2**70, old, headless), Refusal.NUMBER),
                (("A", large, -1, old, headless), Refusal.NUMBER), (("A", large, 0, old, headless), Refusal.VALUE),
                (("A", carriers, 0, old, headless), Refusal.SYNC), (("A", carriers, 0, headless, old), Refusal.SYNC),
            ]:
                kept = bytes(given[1])
                self.refused(refusal, call, *given)
                self.assertEqual((bytes(given[1]), coder.record), (kept, record))
        self.refused(Refusal.NUMBER, coder.coded_packet, "A", carriers, P)
        self.refused(Refusal.CARRIERS_LENGTH, coder.coded_packet, "A", carriers[1:], P)
        self.refused(Refusal.LAYER_UNUSED, coder.coded_packets, "B", carriers)

    def test_going_back(self):
        receiver = SMALL.receiver()
        record = receiver.record
        good, large = bytes(C), b"\x04" + bytes(C - 1)
        slots = bytearray(b"\x07" * 189 * P)
        for given, refusal in [
            (("B", large, slots), Refusal.LAYER_UNUSED), (("A", large[1:], slots[1:]), Refusal.CARRIERS_LENGTH),
            (("A", large, slots[1:]), Refusal.LENGTH), (("A", large, slots), Refusal.VALUE),
        ]:
            kept = bytes(given[2])
            self.refused(refusal, receiver.back, *given)
            self.assertEqual((bytes(given[2]), receiver.record), (kept, record))
        self.assertEqual(len(receiver.back("A", good, slots)), P - 12)

    def test_records(self):
        for make, kept in [(Coder, SMALL.coder().record), (Receiver, SMALL.receiver().record)]:
            self.assertEqual(make.from_record(kept).record, kept)
            for bad in [kept[1:], kept + b"\0", bytes(len(kept)), b"\x04" + kept[1:], b""]:
                self.refused(Refusal.RECORD, make.from_record, bad)
