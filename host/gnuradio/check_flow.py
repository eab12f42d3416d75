"""Runs the blocks in flow graphs: there and back with layers of every size and with three at once, tags, damage, gaps and bad
input; and station.grc, as grcc compiles it."""

import subprocess
import sys
import tempfile
from pathlib import Path

import check_model as model
import numpy
import pmt
import warintaya
import warintaya_coder
import warintaya_receiver
from check_common import fail, packets, run, same
from gnuradio import blocks, gr

HERE = Path(warintaya_coder.__file__).parent
SMALL = ("1", {"A": ("qpsk", "1/2", 2)}, "A")
THREE = ("1", {"A": ("qpsk", "2/3", 1), "B": ("16qam", "3/4", 2), "C": ("64qam", "7/8", 3)})
STATIONS = [
    ("1", {"A": ("qpsk", "1/2", 1)}, "A"), ("2", {"B": (4, 5, 3)}, "B"),
    ("3", {"A": ("qpsk", "2/3", 1), "C": ("64qam", "7/8", 12)}, "C"), ("3", {"A": ("64qam", "7/8", 13)}, "A"),
]
LOST = b"\x47\x9f\xff\x10" + b"\xff" * 184


def layer_of(station):
    """The settings of the layer that goes through the blocks."""
    return warintaya.Station(*station[:2]).layer(station[2])


def coded(station, sent):
    """Carriers by the Python module."""
    coder, length = warintaya.Station(*station[:2]).coder(), 188 * layer_of(station).packets
    return numpy.concatenate([coder.code(station[2], frame) for frame in sent.reshape(-1, length)])


def received(station, carriers, tags=()):
    """What the receiver block gives for carriers: the packets, and what was counted."""
    flow, told = gr.top_block(), []
    receiver, sink = warintaya_receiver.blk(*station), blocks.vector_sink_b()
    # a flow graph that ends may drop messages on their way: these are taken where they are told
    receiver.message_port_pub = lambda _, message: told.append(pmt.to_python(message))
    flow.connect(blocks.vector_source_b(carriers.tolist(), False, 1, tags), receiver, sink)
    flow.run()
    return bytes(sink.data()), told


def tag(offset, number):
    """The mark of a frame's start."""
    one = gr.tag_t()
    one.offset, one.key, one.value = offset, pmt.intern("frame"), pmt.from_uint64(number)
    return one


def there_and_back():
    """Layers of every size; the coder's carriers are the module's."""
    count = 0
    for station in STATIONS:
        sent = packets(1, 4 * layer_of(station).packets)
        count += same("carriers", run(sent, [warintaya_coder.blk(*station)]), coded(station, sent))
        came = run(sent, [warintaya_coder.blk(*station), warintaya_receiver.blk(*station)])
        count += same("packets", came, sent[:-12 * 188])
    print(f"gnuradio: {len(STATIONS)} layers, of 12 to 3,276 packets a frame, there and back: {count:,} bytes are the same")


def three_at_once():
    """Three layers of a station side by side; the flow graph is run again, and begins anew."""
    flow, ends = gr.top_block(), []
    for name, layer in warintaya.Station(*THREE).used():
        sent, sink = packets(name, 5 * layer.packets), blocks.vector_sink_b()
        source = blocks.vector_source_b(sent.tolist())
        chain = [warintaya_coder.blk(*THREE, name.name), warintaya_receiver.blk(*THREE, name.name)]
        flow.connect(source, *chain, sink)
        # a flow graph does not keep its Python blocks: they are kept here
        ends.append((source, sink, sent, chain))
    for turn in range(2):
        flow.run()
        for source, sink, sent, _ in ends:
            same(f"three layers, run {turn}", bytes(sink.data()), sent[:-12 * 188])
            source.rewind()
            sink.reset()
    print("gnuradio: three layers in one flow graph, and once more when it is started again")


def marks():
    """Each frame that the coder gives has its tag, also when the flow graph is started again, with the same carriers."""
    flow, sink, layer = gr.top_block(), blocks.vector_sink_b(), layer_of(SMALL)
    sent = packets(2, 5 * layer.packets)
    source, chain = blocks.vector_source_b(sent.tolist()), [warintaya_coder.blk(*SMALL), blocks.copy(1)]
    flow.connect(source, *chain, sink)
    for turn in range(2):
        flow.run()
        same(f"carriers, run {turn}", bytes(sink.data()), coded(SMALL, sent))
        found = [(one.offset, pmt.to_python(one.key), pmt.to_uint64(one.value)) for one in sink.tags()]
        if sorted(found) != [(layer.carriers * number, "frame", number) for number in range(5)]:
            fail(f"the tags of run {turn} are {found}")
        source.rewind()
        sink.reset()
    print("gnuradio: a tag at each frame's start")


def counts_of(number, frame):
    """What the block has to tell of a frame, by the module's packets."""
    mended = [one.corrected for one in frame if one.corrected]
    lost, wrong_start = sum(one.lost for one in frame), sum(one.wrong_start for one in frame)
    return {
        "frame": number, "skipped": 0, "packets": len(frame), "corrected": sum(mended), "mended": len(mended), "lost": lost,
        "wrong_start": wrong_start,
    }


def damage():
    """What can't be had is told and keeps its place; what was corrected is counted as the module counts it."""
    layer, generator = layer_of(SMALL), numpy.random.default_rng(3)
    sent = packets(3, 6 * layer.packets).copy()
    sent[188 * (4 * layer.packets + 1)] = 0x46
    carriers = model.coded(sent, layer.packets, "qpsk", "1/2")
    middle = carriers[2 * layer.carriers:4 * layer.carriers]
    middle ^= (generator.random(middle.size) < 0.14).astype(numpy.uint8)
    came, told = received(SMALL, carriers)
    receiver = warintaya.Receiver(layer)
    frames = [list(receiver.back("A", frame)) for frame in carriers.reshape(-1, layer.carriers)]
    expected = [counts_of(number, frame) for number, frame in enumerate(frames)]
    if told != expected:
        fail(f"{told} was counted, not {expected}")
    all_of_them = [one for frame in frames for one in frame]
    right = b"".join(LOST if one.data is None else bytes(one.data) for one in all_of_them)
    same("packets of damaged carriers", came, right)
    lost, mended, headless = (sum(counts[key] for counts in told) for key in ("lost", "mended", "wrong_start"))
    if not lost or not mended or headless != 1:
        fail("the damage is not as it should be")
    count = len(all_of_them)
    print(f"gnuradio: damage: {lost} of {count} packets lost, one without 47, {mended} mended, as the module has it")


def gaps():
    """A receiver joins in the middle of a frame, and goes on behind a frame that is missing."""
    layer, sent = layer_of(SMALL), packets(4, 6 * layer_of(SMALL).packets)
    frames = coded(SMALL, sent).reshape(6, -1)
    numbers = [1, 2, 4, 5]
    stream = numpy.concatenate([frames[0][-1000:]] + [frames[number] for number in numbers])
    tags = [tag(1000 + layer.carriers * place, number) for place, number in enumerate(numbers)]
    came, told = received(SMALL, stream, tags)
    length = 188 * layer.packets
    expected = [sent[length:3 * length - 12 * 188], sent[4 * length:6 * length - 12 * 188]]
    same("packets around gaps", came, numpy.concatenate(expected))
    if [(counts["frame"], counts["skipped"]) for counts in told] != [(1, 1000), (2, 0), (4, 0), (5, 0)]:
        fail(f"the frames are counted as {told}")
    print("gnuradio: gaps: the receiver joins at the next frame's tag")


def bad_input():
    """What is refused ends the flow graph behind the frames before it; settings are refused when the block is made."""
    layer, sent = layer_of(SMALL), packets(5, 4 * layer_of(SMALL).packets)
    headless = sent.copy()
    headless[188 * (2 * layer.packets + 7)] = 0x46
    if run(headless, [warintaya_coder.blk(*SMALL)]).size != 2 * layer.carriers:
        fail("a packet without 47 does not end the stream behind the frames before it")
    carriers = coded(SMALL, sent)
    carriers[3 * layer.carriers + 5] = 4
    same("packets before a carrier that can't be", received(SMALL, carriers)[0], sent[:188 * (3 * layer.packets - 12)])
    for wrong in [("4", {}, "A"), ("1", {"A": (2, 1, 7), "B": (2, 1, 7)}, "A"), ("1", {"A": (2, 1, 7)}, "B")]:
        for block in (warintaya_coder, warintaya_receiver):
            try:
                block.blk(*wrong)
            except warintaya.Refused:
                continue
            fail(f"{wrong} was not refused")


def flow_graph():
    """station.grc from file to file, as grcc compiles it."""
    layer = warintaya.Station("3", {"A": ("qpsk", "2/3", 1)}).layer("A")
    sent = packets(6, 20 * layer.packets)
    with tempfile.TemporaryDirectory() as work:
        source, sink = Path(work, "sent.ts"), Path(work, "came.ts")
        source.write_bytes(sent.tobytes())
        subprocess.run(["grcc", "-o", work, str(HERE / "station.grc")], check=True, stdout=subprocess.DEVNULL)
        command = [sys.executable, f"{work}/station.py", "--source", str(source), "--sink", str(sink)]
        ran = subprocess.run(command, check=True, stdin=subprocess.DEVNULL, capture_output=True, text=True, timeout=300)
        count = same("station.grc", sink.read_bytes(), sent[:-12 * 188])
    # the last messages may be dropped when the flow graph ends
    if not 10 <= ran.stdout.count("corrected") <= 20:
        fail(f"station.grc does not tell what was corrected in each frame: {ran.stdout}")
    print(f"gnuradio: station.grc, by grcc: 20 frames there and back with wrong bits between: {count:,} bytes are the same")


def told_of_bad_input():
    """Bad input in a process of its own: one line for each."""
    command = [sys.executable, __file__, "bad_input"]
    ran = subprocess.run(command, stdout=subprocess.PIPE, stderr=subprocess.STDOUT, text=True, timeout=60)
    for line in (
        "coder :error: frame 2, packet 7: a packet does not begin with 47 (refusal 8)",
        "receiver :error: frame 3, carrier 5: a carrier has a value that is too large for its modulation (refusal 10)",
    ):
        if ran.returncode or ran.stdout.count(line) != 1:
            fail(f"bad input is told as {ran.stdout}")
    print("gnuradio: bad input ends the flow graph, with a line that says what and where")


def main():
    for part in (there_and_back, three_at_once, marks, damage, gaps, told_of_bad_input, flow_graph):
        part()


if sys.argv[1:] == ["bad_input"]:
    bad_input()
else:
    main()
