//! Streams behind `Read` and `Write`: they give what the calls give, and refuse what the calls refuse.

use std::io::{self, ErrorKind, Read, Write};

use crate::common::{packets, stations};
use second::random::Random;
use warintaya::{lost_packet, Coder, Coding, FrameReader, FrameWriter, LayerName, PACKET};
use warintaya::{Receiver, Receiving, Refusal, Station};

/// A reader that gives few bytes at a time, and says now and then that it was interrupted.
struct Slow<'a> {
    bytes: &'a [u8],
    random: Random,
}

impl Read for Slow<'_> {
    fn read(&mut self, out: &mut [u8]) -> io::Result<usize> {
        if self.random.below(5) == 0 {
            return Err(ErrorKind::Interrupted.into());
        }
        let count = (1 + self.random.below(3000) as usize).min(out.len());
        self.bytes.read(&mut out[..count])
    }
}

/// What the calls give for the frames of a stream: the carriers, and the packets that come back.
fn called(station: Station, name: LayerName, stream: &[u8]) -> (Vec<u8>, Vec<u8>) {
    let layer = station.layer(name).expect("a layer that is used");
    let (mut coder, mut receiver) = (Coder::new(station), Receiver::new(station));
    let (mut all, mut came) = (Vec::new(), Vec::new());
    for frame in stream.chunks(PACKET * layer.packets()) {
        let mut carriers = vec![0; layer.carriers()];
        coder
            .code(name, frame, &mut carriers)
            .expect("a good frame");
        let received = receiver.receive(name, &carriers).expect("good carriers");
        for packet in &received {
            match packet {
                warintaya::Packet::Corrected(0, packet) => came.extend(packet),
                other => panic!("{other:?}"),
            }
        }
        all.extend(carriers);
    }
    (all, came)
}

#[test]
fn streams_are_what_the_calls_give() {
    let mut random = Random::new(71);
    for station in stations() {
        for (name, layer) in station.used() {
            let stream = packets(&mut random, 3 * layer.packets());
            let (all, came) = called(station, name, &stream);
            let coding = || Coding::new(Coder::new(station), name).expect("a layer that is used");
            let receiving = || Receiving::new(Receiver::new(station), name).expect("a used layer");
            let slow = |bytes, seed| {
                let random = Random::new(seed);
                Slow { bytes, random }
            };
            let mut read = Vec::new();
            let carriers = FrameReader::new(coding(), slow(&stream, 1));
            let mut reader = FrameReader::new(receiving(), carriers);
            reader.read_to_end(&mut read).expect("a good stream");
            assert!(read == came, "{station}, {name}: read");

            let mut writer = FrameWriter::new(coding(), FrameWriter::new(receiving(), Vec::new()));
            for piece in stream.chunks(1000) {
                writer.write_all(piece).expect("a good stream");
            }
            writer.flush().expect("a list");
            let (coded, writer) = writer.finish().expect("whole frames");
            let (_, written) = writer.finish().expect("whole frames");
            assert!(written == came, "{station}, {name}: written");
            let mut carriers = Vec::new();
            let mut reader = FrameReader::new(coding(), slow(&stream, 2));
            reader.read_to_end(&mut carriers).expect("a good stream");
            assert!(carriers == all);
            let (left, _) = reader.into_parts();
            assert!(left.into_coder() == coded.into_coder());
        }
    }
}

/// The refusal that an error holds.
fn refusal(error: &io::Error) -> Option<&Refusal> {
    error.get_ref().and_then(|inner| inner.downcast_ref())
}

#[test]
fn streams_are_refused() {
    let station = stations()[0];
    let layer = station.layer(LayerName::A).expect("a used layer");
    let unused = Coding::new(Coder::new(station), LayerName::B);
    assert_eq!(unused.err(), Some(Refusal::LayerUnused));
    let coding = || Coding::new(Coder::new(station), LayerName::A).expect("a used layer");
    let mut stream = packets(&mut Random::new(72), 2 * layer.packets());
    let mut reader = FrameReader::new(coding(), &stream[..stream.len() - 1]);
    let cut = io::copy(&mut reader, &mut io::sink()).expect_err("a frame that is cut");
    assert_eq!(cut.kind(), ErrorKind::UnexpectedEof);
    stream[PACKET * layer.packets()] = 0x46;
    let (mut carriers, mut reader) = (Vec::new(), FrameReader::new(coding(), &stream[..]));
    let bad = reader
        .read_to_end(&mut carriers)
        .expect_err("a packet without 47");
    assert_eq!(refusal(&bad), Some(&Refusal::Sync));
    assert_eq!(
        carriers.len(),
        layer.carriers(),
        "the frame before it is out"
    );
    let mut writer = FrameWriter::new(coding(), Vec::new());
    let bad = writer.write_all(&stream).expect_err("a packet without 47");
    assert_eq!(refusal(&bad), Some(&Refusal::Sync));
    writer.write_all(&stream[..5]).expect("part of a frame");
    let cut = writer.finish().expect_err("a frame that is cut");
    assert_eq!(cut.kind(), ErrorKind::UnexpectedEof);
}

/// Packets that can't be had keep their places.
#[test]
fn lost_packets_keep_their_places() {
    let station = stations()[0];
    let layer = station.layer(LayerName::A).expect("a used layer");
    let stream = packets(&mut Random::new(73), 3 * layer.packets());
    let (mut carriers, _) = called(station, LayerName::A, &stream);
    carriers[layer.carriers() / 2..][..layer.carriers()].fill(0);
    let receiving = Receiving::new(Receiver::new(station), LayerName::A).expect("a used layer");
    let mut came = Vec::new();
    let mut reader = FrameReader::new(receiving, &carriers[..]);
    reader.read_to_end(&mut came).expect("good carriers");
    assert_eq!(came.len(), stream.len() - 12 * PACKET);
    let pairs = came.chunks(PACKET).zip(stream.chunks(PACKET));
    let lost = pairs.filter(|(came, sent)| {
        assert!(came == sent || **came == lost_packet());
        came != sent
    });
    assert!(lost.count() > 5);
}
