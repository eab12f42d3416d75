//! Live streams that a signal ends: what they leave, and what they say was read and not taken.

use std::path::Path;

use crate::common::packets;
use crate::live::{names, Live};
use crate::running::{folder, ok, options, path};
use second::random::Random;
use warintaya::PACKET;

const SETTINGS: [&str; 4] = ["1", "qpsk", "1/2", "1"];

/// The carriers of a frame of 12 packets.
const CARRIERS: usize = 19_584;

fn code(more: &[&str]) -> Vec<String> {
    options("code", SETTINGS, more)
}

/// How many bytes a run says that it read and did not take.
fn not_taken(said: &str) -> usize {
    match said.split_once(" bytes of the next read") {
        Some((front, _)) => front.rsplit(' ').next().unwrap().parse().unwrap(),
        None => 0,
    }
}

/// A run that stuffs frames is ended though its input says nothing.
#[test]
fn stuffing_is_ended() {
    let mut live = Live::start(&code(&["--stuff", "--guard", "1/32"]));
    live.give(&packets(&mut Random::new(101), 5));
    live.read(2 * CARRIERS);
    live.signal("TERM");
    let (status, _, said) = live.end();
    assert_eq!(status, Some(143), "{said}");
    assert_eq!(said, "warintaya code: ended by SIGTERM\n");
}

/// Reads frames until a receiver has all packets of a stream.
fn frames_of(live: &mut Live, stream: &[u8]) -> Vec<u8> {
    let mut carriers = Vec::new();
    for _ in 0..500 {
        carriers.extend(live.read(CARRIERS));
        if ok(&options("back", SETTINGS, &[]), &carriers) == stream {
            return carriers;
        }
    }
    panic!("the stream does not come");
}

/// Ends a run by a signal, which is told, and gives what it has still written and how many bytes it did not take.
fn ended(live: &mut Live) -> (Vec<u8>, usize) {
    live.signal("INT");
    let (status, rest, said) = live.end();
    assert_eq!(status, Some(130), "{said}");
    assert_eq!(rest.len() % CARRIERS, 0);
    (rest, not_taken(&said))
}

/// With a state it ends behind a whole frame, and another run goes on with what was not taken.
#[test]
fn stuffing_goes_on() {
    let folder = folder("stuff-goes-on");
    let state = path(&folder, "state");
    let stream = packets(&mut Random::new(102), 40);
    let stuff = code(&["--stuff", "--guard", "1/32", "--state", &state]);
    let (first, rest) = stream.split_at(20 * PACKET);
    let mut live = Live::start(&stuff);
    live.give(&[first, &rest[..50]].concat());
    let mut carriers = frames_of(&mut live, first);
    let (more, not_taken) = ended(&mut live);
    // a part of a packet is read as it comes, and waited for
    assert!([0, 50].contains(&not_taken), "{not_taken}");
    carriers.extend(more);
    carriers.extend(ok(&stuff, rest));
    assert!(ok(&options("back", SETTINGS, &[]), &carriers) == stream);
    assert_eq!(names(Path::new(&folder)), ["state"]);
}

/// What was read ahead, to find a lost sync again, was not taken.
#[test]
fn what_was_read_ahead_is_not_taken() {
    let folder = folder("resync-left");
    let state = path(&folder, "state");
    let stream = packets(&mut Random::new(103), 19);
    let (front, behind) = stream.split_at(11 * PACKET);
    let input = [front, &[0; 50], behind].concat();
    let mut live = Live::start(&code(&["--resync", "--state", &state]));
    live.give(&input);
    live.read(CARRIERS);
    let (rest, not_taken) = ended(&mut live);
    assert!(rest.is_empty());
    // from the lost place on the room of six packets is looked through for a row, and the frame has one packet of it
    let (least, most) = (6 * 204 - 50 - PACKET, 7 * PACKET);
    assert!((least..=most).contains(&not_taken), "{not_taken}");
}

/// The record may be kept on the way while lines are written into a file.
#[test]
fn lines_do_not_keep_a_record_from_being_kept() {
    let folder = folder("json-keep-every");
    let [state, json] = ["state", "lines"].map(|name| path(&folder, name));
    let carriers = ok(&code(&[]), &packets(&mut Random::new(104), 100));
    let more = ["--state", &state, "--keep-every", "2", "--json", &json];
    ok(&options("back", SETTINGS, &more), &carriers);
    assert_eq!(names(Path::new(&folder)), ["lines", "state"]);
}
