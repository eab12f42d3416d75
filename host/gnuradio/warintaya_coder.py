"""Packets of a layer into frames of carriers, as an embedded Python block of GNU Radio."""

import numpy
import pmt
from gnuradio import gr
from warintaya import PACKET, Refusal, Refused, Station

FRAME = pmt.intern("frame")


class blk(gr.basic_block):
    """Codes one layer of an ISDB-T station.

    In: transport packets of 188 bytes, one behind the other. Out: carriers, a byte each, in whole frames; the tag "frame" at the
    first carrier of each has the frame's number, from 0 on.

    mode: "1", "2" or "3". layers: all layers of the station, by their names. layer: the one that goes through this block.

    A packet that doesn't begin with 47 ends the flow graph, with a line that says which.
    """

    def __init__(self, mode="1", layers={"A": ("qpsk", "1/2", 1)}, layer="A"):
        gr.basic_block.__init__(self, name="Warintaya coder", in_sig=[numpy.uint8], out_sig=[numpy.uint8])
        self._station, self._name, self._frames = Station(mode, layers), layer, 0
        settings = self._station.layer(layer)
        if settings is None:
            raise Refused(Refusal.LAYER_UNUSED)
        self._packets, self._carriers = PACKET * settings.packets, settings.carriers
        self._coder = self._station.coder()
        # the scheduler makes room for whole frames, here and before this block
        self.set_output_multiple(self._carriers)
        self.set_relative_rate(self._carriers, self._packets)
        self.set_tag_propagation_policy(gr.TPP_DONT)

    def start(self):
        """A flow graph that is started again is a new stream."""
        self._coder, self._frames = self._station.coder(), 0
        return True

    def forecast(self, noutput_items, ninputs):
        """A frame is coded at a time."""
        return [self._packets] * ninputs

    def general_work(self, input_items, output_items):
        """Codes the next frame."""
        packets, carriers = input_items[0][:self._packets], output_items[0][:self._carriers]
        try:
            self._coder.code(self._name, packets, carriers)
        except Refused as refused:
            number = int(numpy.argmax(packets[::PACKET] != 0x47))
            self.gateway.logger.error(f"frame {self._frames}, packet {number}: {refused}")
            return gr.WORK_DONE
        self.add_item_tag(0, self.nitems_written(0), FRAME, pmt.from_uint64(self._frames))
        self._frames += 1
        self.consume(0, self._packets)
        return self._carriers
