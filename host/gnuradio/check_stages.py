"""Holds the product to GNU Radio's gr-dtv, which is for DVB-T, stage by stage where both do the same, and as a whole: what the
library codes against a model of gr-dtv's blocks, and gr-dtv's decoders on what the library has coded."""

import ctypes

import check_model as model
import numpy
import warintaya
from check_common import MODULATIONS, RATES, fail, packets, run, same
from gnuradio import dtv

FRAMES = 8
# every modulation at every rate, each in another mode at the next rate; then the largest layer
SETTINGS = [(1 + (one + other) % 3, modulation, rate, 1) for one, rate in enumerate(RATES)
            for other, modulation in enumerate(MODULATIONS)]
LARGEST = (3, "64qam", "7/8", 13)
# shares of wrong bits that leave no packet lost
MENDED = {"1/2": 0.05, "2/3": 0.02, "3/4": 0.01, "5/6": 0.006, "7/8": 0.003}
# what is counted over all settings, and in which units
PARITY, CODE, THERE, BACK = "parity", "the convolutional code with puncturing", "the whole way there", "gr-dtv's decoders"
UNITS = {PARITY: "bytes", CODE: "bits", THERE: "carriers", BACK: "bytes of packets"}
library = ctypes.CDLL(warintaya.LIBRARY)
AREA = [ctypes.c_char_p, ctypes.c_size_t]
library.warintaya_disperse_interleave.argtypes = AREA + [ctypes.c_uint8, ctypes.c_size_t] + AREA + AREA


def told(stage, count, unit="bytes"):
    """A line for a stage."""
    print(f"gr-dtv: {stage}: the same, {count:,} {unit}", flush=True)


def record_of(layer):
    """A coding record before the first frame."""
    return ctypes.create_string_buffer(warintaya.Station.alone(layer).coder().record, 4462)


def disperse_interleave(layer, words):
    """What comes out when the words of frames go in one after the other, by the library."""
    record, out, came = record_of(layer), ctypes.create_string_buffer(204), []
    for number, word in enumerate(words.reshape(-1, 204)):
        place = number % layer.packets
        if library.warintaya_disperse_interleave(record, 4462, 0, place, word.tobytes(), 204, out, 204):
            fail("a word was not dispersed and interleaved")
        came.append(out.raw)
    return numpy.frombuffer(b"".join(came), dtype=numpy.uint8)


def coded(layer, sent):
    """The carriers of whole frames, by the library."""
    coder = warintaya.Coder(layer)
    return numpy.concatenate([coder.code("A", frame) for frame in sent.reshape(-1, 188 * layer.packets)])


def sequences():
    """The sequence of the dispersal, as far as DVB-T shows it: it begins anew each eight packets, and skips first bytes. Words of
    zeros that are interleaved and deinterleaved again are what is added to them."""
    layer = warintaya.Layer(1, "64qam", "1/2", 1)
    ours = model.deinterleaved(disperse_interleave(layer, numpy.zeros(204 * layer.packets, dtype=numpy.uint8)))
    empty = numpy.resize(numpy.frombuffer(b"\x47" + bytes(187), dtype=numpy.uint8), 188 * 8 * 40)
    theirs = run(empty, [dtv.dvbt_energy_dispersal(1)], 1, 1504)[1:1504]
    places = numpy.arange(1503)
    seen = (places % 188 != 187) & (places % 204 != 203)
    told("the sequence of the dispersal", same("the sequence", ours[:1503][seen], theirs[seen]))


def interleavers():
    """The byte interleaver, word by word, behind a dispersal in numpy."""
    layer = warintaya.Layer(1, "qpsk", "1/2", 1)
    words = numpy.random.default_rng(1).integers(0, 256, 204 * 2400, dtype=numpy.uint8)
    sent = model.interleaved(model.dispersed(words, layer.packets))
    told("the byte interleaver", same("the byte interleaver", disperse_interleave(layer, words), sent))


def corrections():
    """The nearest codeword: words with 0 to 8 wrong bytes, which the library receives as carriers."""
    layer, generator = warintaya.Layer(1, "64qam", "1/2", 2), numpy.random.default_rng(2)
    sent = packets(3, layer.packets * FRAMES)
    words, wrong = model.with_parity(sent).reshape(-1, 204), numpy.arange(layer.packets * FRAMES) % 9
    for word, count in zip(words, wrong):
        # the first byte is not sent: it is known
        places = 1 + generator.permutation(203)[:count]
        word[places] ^= generator.integers(1, 256, count, dtype=numpy.uint8)
    same("gr-dtv's nearest codeword", model.corrected(words.reshape(-1)), sent)
    sent_bytes = model.interleaved(model.dispersed(model.words_of(words), layer.packets))
    carriers = model.carriers_of(model.kept(sent_bytes, "64qam", "1/2"), 6)
    receiver, came = warintaya.Receiver(layer), []
    for frame in carriers.reshape(-1, layer.carriers):
        came += [(packet.corrected, bytes(packet.data or b"")) for packet in receiver.back("A", frame)]
    if [count for count, _ in came] != wrong[:len(came)].tolist():
        fail("the library counts other wrong bytes than there are")
    count = same("the nearest codeword", b"".join(data for _, data in came), sent[:188 * len(came)])
    told("the nearest codeword, with 0 to 8 bytes wrong", count)


def there_and_back(setting, frames, counts):
    """One setting as a whole: the library's carriers are the model's; and what gr-dtv's decoders make of them, stage by stage."""
    _, modulation, rate, _ = setting
    layer, v = warintaya.Layer(*setting), MODULATIONS[modulation]
    sent = packets(str(setting), layer.packets * frames)
    ours = coded(layer, sent)
    with_parity = model.with_parity(sent)
    words = model.words_of(with_parity)
    bytes_sent = model.interleaved(model.dispersed(words, layer.packets))
    bits = model.kept(bytes_sent, modulation, rate)
    found = model.kept_of(ours, v)
    counts[CODE] += same(f"kept bits, {layer}", found, bits[:found.size])
    counts[THERE] += same(f"carriers, {layer}", ours, model.carriers_of(bits, v))
    back_again(layer, found, modulation, rate, sent, with_parity, counts)


def back_again(layer, found, modulation, rate, sent, with_parity, counts):
    """gr-dtv's decoders on the library's kept bits."""
    received = model.deinterleaved(model.best_message(found, modulation, rate))
    words = model.coded_of(model.dispersed(received, layer.packets))
    parities, expected = words.reshape(-1, 204)[:, 188:], with_parity.reshape(-1, 204)[:, 188:]
    counts[PARITY] += same(f"parity, {layer}", parities.copy(), expected[:len(parities)].copy())
    came = model.corrected(words)
    counts[BACK] += same(f"packets, {layer}", came, sent[:came.size])


def damaged(setting, share, all_of_them):
    """Carriers with wrong bits: the library gives no packet that was not sent; up to some share both give all packets."""
    _, modulation, rate, _ = setting
    layer, v, generator = warintaya.Layer(*setting), MODULATIONS[modulation], numpy.random.default_rng(4)
    sent = packets(5, layer.packets * FRAMES).reshape(-1, 188)
    carriers = coded(layer, sent)
    carriers ^= model.values_of((generator.random((carriers.size, v)) < share).astype(numpy.uint8))
    receiver = warintaya.Receiver(layer)
    ours = [packet.data for frame in carriers.reshape(-1, layer.carriers) for packet in receiver.back("A", frame)]
    received = model.deinterleaved(model.best_message(model.kept_of(carriers, v), modulation, rate))
    theirs = model.corrected(model.coded_of(model.dispersed(received, layer.packets))).reshape(-1, 188)
    count = min(len(ours), len(theirs))
    right = [bytes(ours[place]) == sent[place].tobytes() for place in range(count) if ours[place] is not None]
    if not all(right):
        fail("the library gave a packet that was not sent")
    by_them = int((theirs[:count] == sent[:count]).all(axis=1).sum())
    what = f"{layer}, {share:.1%} of the bits wrong: of {count} packets the library gives {len(right)}, gr-dtv {by_them}"
    if all_of_them and not len(right) == by_them == count:
        fail(what)
    print(f"gr-dtv: {what}")


def main():
    sequences()
    interleavers()
    corrections()
    counts = dict.fromkeys(UNITS, 0)
    for setting in SETTINGS:
        there_and_back(setting, FRAMES, counts)
    there_and_back(LARGEST, 2, counts)
    for stage, count in counts.items():
        told(f"{stage}, {len(SETTINGS) + 1} settings", count, UNITS[stage])
    for rate, share in MENDED.items():
        damaged((1, "64qam", rate, 2), share, True)
    damaged((1, "64qam", "1/2", 2), 0.065, False)
    damaged((1, "64qam", "7/8", 2), 0.007, False)


main()
