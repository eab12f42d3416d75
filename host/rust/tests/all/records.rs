//! Records of three layers: which are started, which are good, and what is refused where a layer isn't used.

use crate::common::{layers, packets, stations};
use second::random::Random;
use warintaya::LayerName::{A, B, C};
use warintaya::{doors, Coder, Layer, LayerName, Receiver, Refusal, Station};
use warintaya::{CODING_RECORD, CODING_STATE, RECEIVING_RECORD, RECEIVING_STATE, UNUSED};

/// A coder and a receiver behind a frame of every layer.
fn behind_frames(station: Station, random: &mut Random) -> (Coder, Receiver) {
    let (mut coder, mut receiver) = (Coder::new(station), Receiver::new(station));
    for (name, layer) in station.used() {
        let frame = packets(random, layer.packets());
        let mut carriers = vec![0; layer.carriers()];
        let coded = coder.code(name, &frame, &mut carriers);
        coded.expect("a good frame");
        receiver.receive(name, &carriers).expect("good carriers");
    }
    (coder, receiver)
}

/// One byte is another.
fn with(bytes: &[u8], place: usize, value: u8) -> Vec<u8> {
    let mut changed = bytes.to_vec();
    changed[place] = value;
    changed
}

fn not_good_coding(record: &[u8], what: &str) {
    let refused = Coder::from_record(record).err();
    assert_eq!(refused, Some(Refusal::Record), "{what}");
}

fn not_good_receiving(record: &[u8], what: &str) {
    let refused = Receiver::from_record(record).err();
    assert_eq!(refused, Some(Refusal::Record), "{what}");
}

/// What is refused of a station, and of which layer.
fn refused(mode: u8, layers: [[u8; 3]; 3]) -> (u8, Option<LayerName>) {
    match Station::new(mode, layers) {
        Ok(station) => panic!("{station} is started"),
        Err(why) => (why.refusal.number(), why.layer),
    }
}

/// The mode, then the layers in their order, then the sum.
#[test]
fn starts_are_refused_in_their_order() {
    let (bits, rate, segments) = ([3, 9, 99], [2, 6, 99], [2, 1, 14]);
    let full = [6, 5, 13];
    assert_eq!(refused(0, [UNUSED; 3]), (1, None));
    assert_eq!(refused(4, [bits, rate, segments]), (1, None));
    assert_eq!(refused(1, [bits, rate, segments]), (2, Some(A)));
    assert_eq!(refused(1, [rate, bits, segments]), (3, Some(A)));
    assert_eq!(refused(1, [segments, bits, rate]), (4, Some(A)));
    assert_eq!(refused(2, [full, rate, segments]), (3, Some(B)));
    assert_eq!(refused(2, [full, full, segments]), (4, Some(C)));
    assert_eq!(refused(2, [UNUSED, full, bits]), (2, Some(C)));
    assert_eq!(refused(3, [full, full, full]), (12, None));
    assert_eq!(refused(3, [[2, 1, 1], UNUSED, full]), (12, None));
    // three zeros are an unused layer, and a zero among others is tested
    assert_eq!(refused(1, [[0, 0, 1], UNUSED, UNUSED]), (2, Some(A)));
    assert_eq!(refused(1, [UNUSED, [2, 0, 0], UNUSED]), (3, Some(B)));
    assert_eq!(refused(1, [UNUSED, UNUSED, [2, 1, 0]]), (4, Some(C)));
    assert_eq!(Layer::new(1, 0, 0, 0), Err(Refusal::Bits));
    assert_eq!(Layer::new(0, 0, 0, 0), Err(Refusal::Mode));
    let told = Station::new(1, [full, rate, UNUSED]).unwrap_err();
    assert!(told.to_string().starts_with("layer B: the rate"));
    assert!(told.to_string().ends_with("(refusal 3)"));
}

/// The doors fill an area of a record's length with zeros where a start is refused, and leave one of another length.
#[test]
fn a_refused_start_leaves_zeros() {
    type Start = fn(u8, &doors::Layers, &mut [u8]) -> Result<(), Refusal>;
    let sides: [(Start, usize); 2] = [
        (doors::start, CODING_RECORD),
        (doors::receive_start, RECEIVING_RECORD),
    ];
    let good = [[2, 1, 1], UNUSED, [6, 5, 12]];
    let many = [[2, 1, 2], UNUSED, [6, 5, 12]];
    for (start, length) in sides {
        for (mode, layers, refusal) in [
            (0, good, Refusal::Mode),
            (1, many, Refusal::TooManySegments),
        ] {
            let mut area = vec![9; length];
            assert_eq!(start(mode, &layers, &mut area), Err(refusal));
            assert!(area.iter().all(|&byte| byte == 0));
            let mut area = vec![9; length - 1];
            assert_eq!(start(mode, &layers, &mut area), Err(refusal));
            assert!(area.iter().all(|&byte| byte == 9));
        }
        for length in [0, length - 1, length + 1] {
            let mut area = vec![9; length];
            assert_eq!(start(1, &good, &mut area), Err(Refusal::Record));
            assert!(area.iter().all(|&byte| byte == 9));
        }
    }
}

/// What a station tells of itself.
#[test]
fn stations_tell_their_layers() {
    let layer = Layer::new(2, 4, 3, 5).expect("legal settings");
    let alone = Station::from(layer);
    assert_eq!(alone, Station::alone(layer));
    assert_eq!(alone, Station::new(2, [[4, 3, 5], UNUSED, UNUSED]).unwrap());
    assert_eq!(alone.to_string(), layer.to_string());
    let station = Station::new(3, [UNUSED, [2, 2, 1], [6, 3, 12]]).unwrap();
    let shown = "mode 3; B: QPSK, rate 2/3, 1 segment; C: 64QAM, rate 3/4, 12 segments";
    assert_eq!(station.to_string(), shown);
    assert_eq!((station.mode(), station.segments()), (3, 13));
    let used: Vec<(LayerName, [u8; 4])> = station
        .used()
        .map(|(name, layer)| (name, layer.numbers()))
        .collect();
    assert_eq!(used, [(B, [3, 2, 2, 1]), (C, [3, 6, 3, 12])]);
    assert_eq!(station.layer(A), None);
    assert_eq!(station.numbers(), [UNUSED, [2, 2, 1], [6, 3, 12]]);
    let empty = Station::new(1, [UNUSED; 3]).unwrap();
    assert_eq!(empty.to_string(), "mode 1, no layer used");
    assert_eq!((empty.segments(), empty.used().count()), (0, 0));
}

/// A layer that isn't used is refused before all but the record, by its name and by names that no layer has.
#[test]
fn layers_that_are_not_used_are_refused() {
    let unused = Err(Refusal::LayerUnused);
    let mut random = Random::new(25);
    for station in stations()
        .into_iter()
        .chain(Station::new(1, [UNUSED; 3]).ok())
    {
        let (mut coder, mut receiver) = behind_frames(station, &mut random);
        let (before, before_receiver) = (coder.clone(), receiver.clone());
        for name in LayerName::ALL {
            if station.layer(name).is_some() {
                continue;
            }
            assert_eq!(coder.code(name, &[], &mut []), unused);
            assert_eq!(coder.replace_unchecked(name, &mut [], 0, &[], &[]), unused);
            let joined = coder.disperse_interleave(name, 0, &[], &mut []);
            assert_eq!(joined, unused);
            assert_eq!(receiver.back(name, &[], &mut []), Err(Refusal::LayerUnused));
            assert_eq!(receiver.receive(name, &[]), Err(Refusal::LayerUnused));
            assert!(coder.state(name).iter().all(|&byte| byte == 0));
            assert!(receiver.state(name).iter().all(|&byte| byte == 0));
        }
        let (mut record, mut received) = (*coder.record(), *receiver.record());
        for name in [3, 4, 255] {
            assert_eq!(doors::code(&mut record, name, &[], &mut []), unused);
            let replaced = doors::replace(&mut record, name, &mut [], 0, &[], &[]);
            assert_eq!(replaced, unused);
            let joined = doors::disperse_interleave(&mut record, name, 0, &[], &mut []);
            assert_eq!(joined, unused);
            let back = doors::back(&mut received, name, &[], &mut []);
            assert_eq!(back, Err(Refusal::LayerUnused));
            // behind the record
            let short = &mut record[1..];
            let refused = doors::code(short, name, &[], &mut []);
            assert_eq!(refused, Err(Refusal::Record));
        }
        assert!(coder == before && record == *before.record());
        assert!(receiver == before_receiver && received == *before_receiver.record());
    }
}

/// A byte of a layer's state and a value that makes it no good one: of a coding state, of a receiving state, and of a layer that
/// isn't used, which is all zero.
type Bytes = &'static [(usize, u8)];
const BAD_CODING: Bytes = &[(0, 0), (1, 3), (2, 6), (3, 14), (1126, 64), (1127, 2)];
const BAD_RECEIVING: Bytes = &[(0, 4), (4, 2), (4, 0), (1127, 2), (1487, 64), (4559, 1)];
const NOT_UNUSED: Bytes = &[(0, 1), (0, 2), (0, 3), (1, 2), (3, 1), (4, 1), (1486, 1)];

/// A record is kept and gone on from, and one that isn't good is refused.
#[test]
fn records_are_kept_or_refused() {
    let mut random = Random::new(24);
    for station in stations() {
        let (coder, receiver) = behind_frames(station, &mut random);
        let (coding, receiving) = (coder.record(), receiver.record());
        let again = Coder::from_record(coding).expect("a good record");
        assert!(again == coder && again.station() == station);
        let again = Receiver::from_record(receiving).expect("a good record");
        assert!(again == receiver && again.station() == station);
        for mode in [0, 4, station.mode() % 3 + 1] {
            not_good_coding(&with(coding, 0, mode), "another mode");
            not_good_receiving(&with(receiving, 0, mode), "another mode");
        }
        for name in LayerName::ALL {
            let place = |place, state| 1 + name.place() * state + place;
            let (bad_coding, bad_receiving) = match station.layer(name) {
                Some(_) => (BAD_CODING, BAD_RECEIVING),
                None => (NOT_UNUSED, NOT_UNUSED),
            };
            for (byte, value) in bad_coding {
                let bad = with(coding, place(*byte, CODING_STATE), *value);
                not_good_coding(&bad, &format!("{station}, {name}: {byte} is {value}"));
            }
            for (byte, value) in bad_receiving {
                let bad = with(receiving, place(*byte, RECEIVING_STATE), *value);
                not_good_receiving(&bad, &format!("{station}, {name}: {byte} is {value}"));
            }
        }
    }
}

/// More than 13 segments in all are not good in a record either, and neither is a record of another length.
#[test]
fn records_of_other_sizes_are_refused() {
    let station = Station::new(1, [[2, 1, 6], [4, 1, 6], [6, 1, 1]]).unwrap();
    let (coder, receiver) = (Coder::new(station), Receiver::new(station));
    let (coding, receiving) = (coder.record(), receiver.record());
    let last = |state| 1 + 2 * state + 3;
    not_good_coding(&with(coding, last(CODING_STATE), 2), "14 segments");
    not_good_receiving(&with(receiving, last(RECEIVING_STATE), 2), "14 segments");
    for length in [
        0,
        1,
        4,
        CODING_STATE,
        CODING_RECORD - 1,
        CODING_RECORD,
        CODING_RECORD + 1,
        RECEIVING_RECORD - 1,
        RECEIVING_RECORD,
        RECEIVING_RECORD + 1,
    ] {
        not_good_coding(&vec![0; length], "zeros");
        not_good_receiving(&vec![0; length], "zeros");
    }
    not_good_coding(&coding[..CODING_RECORD - 1], "a byte short");
    not_good_coding(&[&coding[..], &[0]].concat(), "a byte long");
    not_good_receiving(&receiving[..RECEIVING_RECORD - 1], "a byte short");
    not_good_receiving(&[&receiving[..], &[0]].concat(), "a byte long");
}

/// The state of one layer is layer A alone.
#[test]
fn states_of_one_layer_are_layer_a_alone() {
    let mut random = Random::new(26);
    for layer in layers() {
        let (coder, receiver) = behind_frames(layer.into(), &mut random);
        let (coding, receiving) = (coder.state(A), receiver.state(A));
        assert!(Coder::from_state(coding).expect("a good state") == coder);
        assert!(Receiver::from_state(receiving).expect("a good state") == receiver);
        for (bad, what) in [
            (with(coding, 0, 0), "mode"),
            (with(coding, 1126, 64), "register"),
            (coding[1..].to_vec(), "a byte short"),
            ([coding, &[0]].concat(), "a byte long"),
            (coder.record().to_vec(), "a record"),
            (vec![], "nothing"),
            (vec![0; CODING_STATE], "zeros"),
            (with(&[0; CODING_STATE], 0, layer.mode()), "a mode alone"),
        ] {
            let refused = Coder::from_state(&bad).err();
            assert_eq!(refused, Some(Refusal::Record), "{what}");
        }
        for (bad, what) in [
            (with(receiving, 0, 4), "mode"),
            (with(receiving, 1487, 64), "register"),
            (receiving[1..].to_vec(), "a byte short"),
            ([receiving, &[0]].concat(), "a byte long"),
            (receiver.record().to_vec(), "a record"),
            (vec![], "nothing"),
            (vec![0; RECEIVING_STATE], "zeros"),
            (with(&[0; RECEIVING_STATE], 0, layer.mode()), "a mode alone"),
        ] {
            let refused = Receiver::from_state(&bad).err();
            assert_eq!(refused, Some(Refusal::Record), "{what}");
        }
    }
}
