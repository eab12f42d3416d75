"""There and back, and packets replaced late."""

import copy
import threading
import unittest

import warintaya
from warintaya import Coder, Layer, NotTogether, OtherPacket, Receiver, Station

from .common import SMALL, STATIONS, THREE, packet, packets, with_packet


class Frames(unittest.TestCase):
    """What is coded comes back, in every layer of a station in turn."""

    def test_there_and_back(self):
        for station in STATIONS:
            coder, receiver = station.coder(), station.receiver()
            sent, came = {}, {}
            for turn in range(3):
                for name, layer in station.used():
                    frame = packets(10 * turn + name, layer.packets)
                    sent.setdefault(name, []).append(frame)
                    received = receiver.back(name, coder.code(name, frame))
                    self.assertEqual(len(received), layer.packets - (12 if turn == 0 else 0))
                    self.assertTrue(all(one.corrected == 0 for one in received))
                    came.setdefault(name, []).extend(bytes(one.data) for one in received)
            for name, layer in station.used():
                whole = b"".join(sent[name])
                self.assertEqual(b"".join(came[name]), whole[:-12 * warintaya.PACKET])

    def test_damage_is_corrected_or_told(self):
        layer = SMALL.layer("A")
        coder, receiver = SMALL.coder(), SMALL.receiver()
        frames = [packets(seed, layer.packets) for seed in range(3)]
        carriers = [coder.code("A", frame) for frame in frames]
        for place in range(9000, 9100):
            carriers[1][place] ^= 3
        carriers[2][:] = bytes(layer.carriers)
        receiver.back("A", carriers[0])
        few = list(receiver.back("A", carriers[1]))
        self.assertTrue(all(one.corrected is not None for one in few))
        self.assertTrue(any(one.corrected for one in few))
        many = list(receiver.back("A", carriers[2]))
        self.assertTrue(any(one.lost or one.wrong_start for one in many))
        self.assertTrue(all(one.corrected is None for one in many if one.lost or one.wrong_start))

    def test_records_are_kept(self):
        coder, receiver = THREE.coder(), THREE.receiver()
        plain_coder, plain_receiver = THREE.coder(), THREE.receiver()
        for turn in range(3):
            for name, layer in THREE.used():
                frame = packets(turn, layer.packets)
                coder, receiver = Coder.from_record(coder.record), Receiver.from_record(receiver.record)
                self.assertEqual((coder.station, receiver.station), (THREE, THREE))
                carriers = coder.code(name, frame)
                self.assertEqual(carriers, plain_coder.code(name, frame))
                self.assertEqual(receiver.back(name, carriers).slots, plain_receiver.back(name, carriers).slots)
        self.assertEqual((coder.record, receiver.record), (plain_coder.record, plain_receiver.record))

    def test_a_copy_goes_its_own_way(self):
        for copied in [copy.copy, copy.deepcopy]:
            coder, receiver = SMALL.coder(), SMALL.receiver()
            carriers = coder.code("A", packets(1, SMALL.layer("A").packets))
            records = coder.record, receiver.record
            copied(coder).code("A", packets(2, SMALL.layer("A").packets))
            copied(receiver).back("A", carriers)
            self.assertEqual((coder.record, receiver.record), records)

    def test_others_wait(self):
        coder, receiver = SMALL.coder(), SMALL.receiver()
        frame = packets(1, SMALL.layer("A").packets)
        carriers = coder.code("A", frame)
        for used, call in [
            (coder, lambda: coder.record), (coder, lambda: copy.copy(coder)), (receiver, lambda: receiver.record),
            (coder, lambda: coder.replace("A", carriers, 3, packet(frame, 3), packet(frame, 3))),
            (coder, lambda: coder.coded_packets("A", carriers)),
        ]:
            with used._lock:
                other = threading.Thread(target=call)
                other.start()
                other.join(0.1)
                self.assertTrue(other.is_alive())
            other.join()


class Replacements(unittest.TestCase):
    """A late replacement is coding again."""

    def test_replacing_is_coding_again(self):
        layer = Layer("1", "16qam", "3/4", 1)
        before = Coder(layer)
        before.code("A", packets(1, layer.packets))
        frame = packets(2, layer.packets)
        for number in range(layer.packets):
            new = packets(100 + number, 1)
            coder, again = copy.copy(before), copy.copy(before)
            carriers = coder.code("A", frame)
            self.assertEqual(coder.coded_packet("A", carriers, number), packet(frame, number))
            coder.replace("A", carriers, number, packet(frame, number) if number % 2 else None, new)
            self.assertEqual(carriers, again.code("A", with_packet(frame, number, new)))
            self.assertEqual(coder.record, again.record)

    def test_another_old_packet_is_refused(self):
        layer = THREE.layer("B")
        coder = THREE.coder()
        frame = packets(3, layer.packets)
        carriers = coder.code("B", frame)
        for number in [0, 9, layer.packets - 1]:
            other = (number + 1) % layer.packets
            altered = bytearray(packet(frame, number))
            altered[100] ^= 1
            for old, found in [(packet(frame, other), other), (bytes(altered), None)]:
                record, kept = coder.record, bytes(carriers)
                with self.assertRaises(OtherPacket) as caught:
                    coder.replace("B", carriers, number, old, packets(4, 1))
                self.assertEqual(caught.exception.found, found)
                self.assertEqual(caught.exception.byte, 1 if found is not None else 100)
                self.assertEqual((record, kept), (coder.record, bytes(carriers)))

    def test_no_frame_comes_between_the_look_and_the_replacement(self):
        count = SMALL.layer("A").packets
        frame, next_frame, new = packets(7, count), packets(8, count), packets(9, 1)

        class Hurried(Coder):
            """Another thread wants to code the next frame as soon as the packets have been read."""

            def coded_packets(self, layer, carriers):
                read = super().coded_packets(layer, carriers)
                self.other = threading.Thread(target=self.code, args=("A", next_frame))
                self.other.start()
                self.other.join(0.1)
                return read

        again = SMALL.coder()
        expected = again.code("A", with_packet(frame, 11, new))
        again.code("A", next_frame)
        for old in [packet(frame, 11), None]:
            coder = Hurried(SMALL)
            carriers = coder.code("A", frame)
            coder.replace("A", carriers, 11, old, new)
            coder.other.join()
            self.assertEqual((carriers, coder.record), (expected, again.record))

    def test_what_is_not_of_one_frame_is_refused(self):
        layer = SMALL.layer("A")
        coder = SMALL.coder()
        first = coder.code("A", packets(5, layer.packets))
        coder.code("A", packets(6, layer.packets))
        with self.assertRaises(NotTogether):
            coder.coded_packets("A", first)


class Names(unittest.TestCase):
    """Settings by their names, and the sizes of frames."""

    def test_sizes(self):
        self.assertEqual((Layer("3", "64qam", "7/8", 13).packets, Layer(3, 6, 5, 13).carriers), (3276, 1018368))
        count = 0
        for mode in warintaya.Mode:
            for modulation in warintaya.Modulation:
                for rate in warintaya.Rate:
                    for segments in range(1, 14):
                        layer = Layer(mode.text, modulation.text.lower(), rate.text, segments)
                        self.assertEqual(layer, Layer(mode, modulation, rate, segments))
                        self.assertEqual(eval(repr(layer)), layer)
                        count += 1
        self.assertEqual(count, 585)

    def test_stations(self):
        self.assertEqual(eval(repr(THREE), {"Station": Station}), THREE)
        self.assertIsNone(SMALL.layer("B"))
        self.assertEqual([name.name for name, _ in THREE.used()], ["A", "B", "C"])
