"""Frames of carriers of a layer into packets, as an embedded Python block of GNU Radio."""

import numpy
import pmt
from gnuradio import gr
from warintaya import PACKET, SLOT, Refusal, Refused, Station

FRAME, COUNTS = pmt.intern("frame"), pmt.intern("counts")
# a null packet with the transport error indicator
LOST = numpy.frombuffer(b"\x47\x9f\xff\x10" + b"\xff" * (PACKET - 4), dtype=numpy.uint8)


class blk(gr.basic_block):
    """Receives one layer of an ISDB-T station.

    In: carriers, a byte each. A frame begins at each tag "frame", or where there are none each C carriers from the first on. Out:
    transport packets of 188 bytes; a null packet with the transport error indicator stands for one that can't be had. The last
    twelve packets of a frame come with the next one.

    counts: a message for each frame: its number, carriers skipped before it, packets that came out, bytes corrected and packets
    mended by that, packets lost and packets without 47.

    mode: "1", "2" or "3". layers: all layers of the station, by their names. layer: the one that goes through this block.

    A carrier with a value that the modulation doesn't have ends the flow graph, with a line that says which.
    """

    def __init__(self, mode="1", layers={"A": ("qpsk", "1/2", 1)}, layer="A"):
        gr.basic_block.__init__(self, name="Warintaya receiver", in_sig=[numpy.uint8], out_sig=[numpy.uint8])
        self._station, self._name = Station(mode, layers), layer
        self._settings = self._station.layer(layer)
        if self._settings is None:
            raise Refused(Refusal.LAYER_UNUSED)
        self._carriers = self._settings.carriers
        self._slots = numpy.zeros((self._settings.packets, SLOT), dtype=numpy.uint8)
        self.start()
        # the scheduler makes room for whole frames, here and before this block
        self.set_output_multiple(PACKET * self._settings.packets)
        self.set_relative_rate(PACKET * self._settings.packets, self._carriers)
        self.set_tag_propagation_policy(gr.TPP_DONT)
        self.message_port_register_out(COUNTS)

    def start(self):
        """A flow graph that is started again is a new stream."""
        self._receiver = self._station.receiver()
        self._next, self._skipped = 0, 0
        return True

    def forecast(self, noutput_items, ninputs):
        """A frame is taken at a time."""
        return [self._carriers] * ninputs

    def general_work(self, input_items, output_items):
        """Takes the next frame, or goes on to its beginning."""
        skipped = self._find_frame()
        if skipped:
            self.consume(0, skipped)
            return 0
        carriers = input_items[0][:self._carriers]
        try:
            given = len(self._receiver.back(self._name, carriers, self._slots))
        except Refused as refused:
            place = int(numpy.argmax(carriers >= 1 << self._settings.modulation))
            self.gateway.logger.error(f"frame {self._next}, carrier {place}: {refused}")
            return gr.WORK_DONE
        self._write(self._slots[:given], output_items[0])
        self.consume(0, self._carriers)
        return PACKET * given

    def _find_frame(self):
        """How many carriers stand before the next frame. Behind a gap the receiver begins anew: it may join at any frame."""
        here = self.nitems_read(0)
        tags = self.get_tags_in_range(0, here, here + self._carriers, FRAME)
        tags = [tag for tag in tags if pmt.is_uint64(tag.value)]
        if not tags:
            return 0
        first = min(tags, key=lambda tag: tag.offset)
        skipped, number = first.offset - here, pmt.to_uint64(first.value)
        if skipped or number != self._next:
            self._receiver, self._next = self._station.receiver(), number
            self._skipped += skipped
        return skipped

    def _write(self, slots, out):
        """Writes the packets of a frame, and tells what was counted."""
        first = slots[:, 0]
        had = first <= 8
        out[:PACKET * len(slots)].reshape(-1, PACKET)[:] = numpy.where(had[:, None], slots[:, 1:], LOST)
        counts = {
            "frame": self._next,
            "skipped": self._skipped,
            "packets": len(slots),
            "corrected": int(first[had].sum()),
            "mended": int((first[had] > 0).sum()),
            "lost": int((first == 255).sum()),
            "wrong_start": int((first == 254).sum()),
        }
        self.message_port_pub(COUNTS, pmt.to_pmt(counts))
        self._next, self._skipped = self._next + 1, 0
