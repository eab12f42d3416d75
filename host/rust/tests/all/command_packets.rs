//! The packets that the command reads: in other forms than 188 bytes, behind a lost sync, and cut off at the end.

use std::io::Write;
use std::process::{Command, Stdio};

use crate::common::packets;
use crate::running::{ok, options, refused, run};
use second::random::Random;
use warintaya::PACKET;

const SETTINGS: [&str; 4] = ["1", "16qam", "3/4", "3"];

/// The packets of a frame.
const COUNT: usize = 108;

/// The bytes in front of a packet and behind it, in each of the forms.
const FORMS: [(usize, usize); 3] = [(0, 0), (0, 16), (4, 0)];

/// A stream in one of the forms; what stands around the packets is random.
fn formed(stream: &[u8], (front, behind): (usize, usize), random: &mut Random) -> Vec<u8> {
    let parts = stream.chunks(PACKET);
    let formed = parts.flat_map(|packet| {
        let (front, behind) = (random.bytes(front), random.bytes(behind));
        [&front[..], packet, &behind].concat()
    });
    formed.collect()
}

/// Bytes among which there is no 47.
fn garbage(random: &mut Random, length: usize) -> Vec<u8> {
    let mut bytes = random.bytes(length);
    bytes.iter_mut().for_each(|byte| *byte &= 0x3F);
    bytes
}

fn code(more: &[&str]) -> Vec<String> {
    options("code", SETTINGS, more)
}

/// The stream that comes back from carriers.
fn back(carriers: &[u8]) -> Vec<u8> {
    ok(&options("back", SETTINGS, &["--quiet"]), carriers)
}

/// Packets of 204 and 192 bytes give the carriers of the 188 that matter, and it is told.
#[test]
fn other_forms_are_taken() {
    let mut random = Random::new(71);
    for count in [2, 3, 4, 5, 40, COUNT - 12, COUNT, 2 * COUNT + 1] {
        let stream = packets(&mut random, count);
        let carriers = ok(&code(&[]), &stream);
        for (form, length) in [(FORMS[1], 204), (FORMS[2], 192)] {
            let (status, written, said) = run(&code(&[]), &formed(&stream, form, &mut random));
            assert!(status == 0 && written == carriers, "{count}: {said}");
            let told = format!("{count} packets and ");
            assert!(said.starts_with(&format!("code: {told}")), "{said}");
            let told = format!("; {length}-byte packets, of which 188 are taken\n");
            assert!(said.ends_with(&told), "{said}");
        }
    }
}

/// Packets of 188 bytes are never taken for another form, whatever stands in them.
#[test]
fn plain_packets_are_plain() {
    let mut stream = vec![0x47; PACKET * 30];
    for step in [204, 192] {
        for first in [0, 4] {
            let (_, _, said) = run(&code(&[]), &stream);
            assert!(!said.contains("-byte packets"), "{said}");
            assert!(back(&ok(&code(&["--resync"]), &stream)) == stream);
            stream.fill(0);
            stream
                .iter_mut()
                .skip(first)
                .step_by(step)
                .for_each(|byte| *byte = 0x47);
            stream
                .iter_mut()
                .step_by(PACKET)
                .for_each(|byte| *byte = 0x47);
        }
    }
}

/// A wrong byte ends the run, and is told with its place in the input, whichever form that has.
#[test]
fn a_wrong_byte_is_told_with_its_place() {
    let mut random = Random::new(72);
    let mut stream = packets(&mut random, COUNT + 40);
    for number in [1, 7, COUNT - 1, COUNT + 39] {
        stream[number * PACKET] = 0x46;
        for form in FORMS {
            let bytes = formed(&stream, form, &mut random);
            let place = number * (form.0 + PACKET + form.1) + form.0;
            let packet = format!("packet {number} begins with 46");
            let place = format!("at byte {place} of");
            let told = [packet.as_str(), &place, "--resync", "refusal 8"];
            refused(&code(&[]), &bytes, &told);
        }
        stream[number * PACKET] = 0x47;
    }
}

/// With `--resync` what stands where no packets are in a row is left out, told and counted; the others come back.
#[test]
fn a_lost_sync_is_found_again() {
    let mut random = Random::new(73);
    for form in FORMS {
        let parts = [40, 100, 1].map(|count| packets(&mut random, count));
        let [one, two, three] = [0, 1, 2].map(|part| formed(&parts[part], form, &mut random));
        let (hole, other) = (garbage(&mut random, 377), garbage(&mut random, 5));
        let input = [&one[..], &hole, &two, &other, &three].concat();
        let (status, carriers, said) = run(&code(&["--resync"]), &input);
        assert_eq!(status, 0, "{said}");
        assert!(back(&carriers) == parts.concat(), "{form:?}");
        let lines: Vec<&str> = said.lines().collect();
        // four bytes of a hole are taken for a time stamp, and the next packet's own is left out with it
        let place = one.len() + form.0;
        let told =
            format!("code: lost the sync at byte {place} of standard input, 377 bytes left out");
        assert_eq!(lines[0], told);
        assert!(lines[1].ends_with("standard input, 5 bytes left out"));
        assert!(lines[2].ends_with("; lost the sync 2 times, 382 bytes left out"));
        assert_eq!(lines.len(), 3);
        refused(&code(&[]), &input, &["packet 40 ", "refusal 8"]);
    }
}

/// A capture that begins within a packet, or with something else, is taken from its first whole packets on.
#[test]
fn a_beginning_that_is_off_is_found() {
    let mut random = Random::new(74);
    let stream = packets(&mut random, 150);
    for form in FORMS {
        let bytes = formed(&stream, form, &mut random);
        for cut in [1, 100, 187] {
            let carriers = ok(&code(&["--resync"]), &bytes[form.0 + cut..]);
            assert!(back(&carriers) == stream[PACKET..], "{form:?}, {cut}");
        }
        // a short one too, whose last packet alone could be of another form
        for (length, count) in [(5000, 150), (100, 8), (300, 3), (50, 2)] {
            let bytes = &bytes[..count * (form.0 + PACKET + form.1)];
            let off = [garbage(&mut random, length), bytes.to_vec()].concat();
            let carriers = ok(&code(&["--resync"]), &off);
            assert!(back(&carriers) == stream[..count * PACKET], "{form:?}");
        }
    }
    // a few packets, the first of them good and the second not
    let mut short = stream[..3 * PACKET].to_vec();
    short[PACKET] = 0;
    let rest = [&stream[..PACKET], &stream[2 * PACKET..3 * PACKET]].concat();
    assert!(back(&ok(&code(&["--resync"]), &short)) == rest);
    // nothing at all
    let (status, carriers, said) = run(&code(&["--resync"]), &garbage(&mut random, 3000));
    assert!(status == 0 && carriers.is_empty(), "{said}");
    assert!(said.contains("lost the sync 1 time, 3000 bytes left out"));
}

/// Ten lines tell where the sync is lost, and the line at the end counts all.
#[test]
fn lost_places_are_told_ten_times() {
    let mut random = Random::new(75);
    let stream = packets(&mut random, 17 * 6);
    let parts = stream.chunks(6 * PACKET);
    let input: Vec<u8> = parts
        .flat_map(|part| [part, &garbage(&mut random, 10)].concat())
        .collect();
    let (status, carriers, said) = run(&code(&["--resync"]), &input);
    assert!(status == 0 && back(&carriers) == stream, "{said}");
    assert_eq!(said.matches("lost the sync at byte").count(), 10);
    assert_eq!(said.matches("further ones are counted").count(), 1);
    assert!(said.contains("; lost the sync 17 times, 170 bytes left out"));
    assert_eq!(said.lines().count(), 11);
    let (_, _, quiet) = run(&code(&["--resync", "--quiet"]), &input);
    assert_eq!(quiet.lines().count(), 10);
}

/// A cut last packet is left out and told, also where the run is to be quiet; those before it are not lost.
#[test]
fn a_cut_last_packet_is_left_out() {
    let mut random = Random::new(76);
    let stream = packets(&mut random, COUNT + 1);
    let told = |place: usize, have: &str| {
        format!(
            "code: the last packet, which begins at byte {place} of standard input, has {have} and not 188: it is left out\n"
        )
    };
    for (length, have) in [(1000, "60 bytes"), (941, "1 byte"), (1127, "187 bytes")] {
        let (status, carriers, said) = run(&code(&["--quiet"]), &stream[..length]);
        assert_eq!((status, said), (0, told(940, have)));
        assert!(back(&carriers) == stream[..940]);
    }
    // a frame that is not full is refused where it may not be filled, in one line
    let words = [
        "has 5 packets and a part of one and not 108",
        "--fill",
        "refusal 5",
    ];
    refused(&code(&["--exact"]), &stream[..1000], &words);
    // a full one is not
    let frame = COUNT * PACKET;
    let (status, carriers, said) = run(&code(&["--exact", "--quiet"]), &stream[..frame + 7]);
    assert_eq!((status, said), (0, told(frame, "7 bytes")));
    assert!(carriers == ok(&code(&["--exact"]), &stream[..frame]));
    // the last packet of 204 bytes is whole without its parity
    let wide = formed(&stream[..20 * PACKET], FORMS[1], &mut random);
    let (status, carriers, said) = run(&code(&["--quiet"]), &wide[..wide.len() - 9]);
    assert_eq!((status, said.as_str()), (0, ""));
    assert!(back(&carriers) == stream[..20 * PACKET]);
}

/// An input that comes in pieces, which end anywhere, is waited for.
#[test]
fn pieces_of_packets_are_waited_for() {
    let mut random = Random::new(77);
    let stream = packets(&mut random, COUNT + 5);
    for form in FORMS {
        let bytes = formed(&stream, form, &mut random);
        let mut child = Command::new(env!("CARGO_BIN_EXE_warintaya"))
            .args(code(&["--quiet"]))
            .stdin(Stdio::piped())
            .stdout(Stdio::piped())
            .spawn()
            .unwrap();
        let mut input = child.stdin.take().unwrap();
        for piece in bytes.chunks(101) {
            input.write_all(piece).unwrap();
        }
        drop(input);
        let output = child.wait_with_output().unwrap();
        assert!(output.status.success() && back(&output.stdout) == stream);
    }
}
