//! `warintaya replace` reads which packet was coded before it replaces one.

use std::fs;
use std::io::{Read, Write};
use std::path::Path;
use std::process::{Command, Stdio};

use crate::command_replace::{again, coded, words, CARRIERS, COUNT, SETTINGS};
use crate::common::packets;
use crate::running::{ok, options, refused, run, usage};
use second::random::Random;
use warintaya::PACKET;

/// The same words without `--old FILE`.
fn without_old(words: Vec<String>) -> Vec<String> {
    let place = words.iter().position(|word| word == "--old").unwrap();
    [&words[..place], &words[place + 2..]].concat()
}

fn kept(folder: &Path) -> [Vec<u8>; 2] {
    ["carriers", "state"].map(|name| fs::read(folder.join(name)).unwrap())
}

/// The letter's accident: an old packet that is another one is refused in the last frame and in one before it, and it is told
/// which packet is meant and where the two differ. The files stay.
#[test]
fn a_wrong_old_packet_is_refused() {
    for (frame, number) in [(2, 5), (2, COUNT - 1), (0, 0), (1, 11)] {
        let place = frame * COUNT + number;
        let (folder, stream) = coded(&format!("wrong-old-{place}"), place);
        let before = kept(&folder);
        let carriers = folder.join("carriers");
        let [packet, frame] = [number, frame].map(|number| number.to_string());
        let mut words = words(&folder, &["--packet", &packet, "--frame", &frame]);
        words.extend(["-o".to_string(), carriers.to_str().unwrap().to_string()]);
        let mut old = stream[PACKET * place..][..PACKET].to_vec();
        let identifier = u16::from(old[1] & 0x1F) << 8 | u16::from(old[2]);
        let there = old[100];
        old[100] ^= 1;
        fs::write(folder.join("old"), &old).unwrap();
        let told = [
            format!("packet {packet} of frame {frame}"),
            format!("identifier {identifier:04X}"),
            format!("byte 100 is {there:02X} and not {:02X}", old[100]),
        ];
        refused(&words, &[], &[&told[0], &told[1], &told[2]]);
        // the packet behind it, as a miscounted number would give
        let wrong = place - number + (number + 1) % COUNT;
        fs::write(folder.join("old"), &stream[PACKET * wrong..][..PACKET]).unwrap();
        let told = format!("old is packet {}", wrong % COUNT);
        refused(&words, &[], &[&told]);
        assert!(kept(&folder) == before);
    }
}

/// No old packet has to be given: it is read.
#[test]
fn the_old_packet_is_read() {
    for (frame, number) in [(2, 0), (2, COUNT - 1), (0, 0), (1, 10)] {
        let place = frame * COUNT + number;
        let (folder, stream) = coded(&format!("no-old-{place}"), place);
        let [packet, frame] = [number, frame].map(|number| number.to_string());
        let words = words(&folder, &["--packet", &packet, "--frame", &frame]);
        let replaced = ok(&without_old(words), &[]);
        let (carriers, state) = again(&folder, &stream, place);
        assert!(replaced == carriers, "frame {frame}, packet {number}");
        assert!(fs::read(folder.join("state")).unwrap() == state);
    }
}

/// Without the look another old packet is taken as it is given: what is then coded is the sum of three packets.
#[test]
fn unchecked_takes_what_it_is_given() {
    let place = 2 * COUNT + 7;
    let (folder, mut stream) = coded("unchecked", place);
    let mut random = Random::new(65);
    let (old, new) = (
        packets(&mut random, 1),
        fs::read(folder.join("new")).unwrap(),
    );
    fs::write(folder.join("old"), &old).unwrap();
    let words = words(&folder, &["--packet", "7"]);
    refused(&words, &[], &["packet 7 of frame 2"]);
    let unchecked = [words.clone(), vec!["--unchecked".to_string()]].concat();
    let replaced = ok(&unchecked, &[]);
    let packet = &mut stream[PACKET * place..][..PACKET];
    for (byte, (old, new)) in packet.iter_mut().zip(old.iter().zip(new)) {
        *byte ^= old ^ new;
    }
    let state = folder.join("sum");
    let code = options("code", SETTINGS, &["--state", state.to_str().unwrap()]);
    assert!(replaced == ok(&code, &stream));
    assert!(fs::read(state).unwrap() == fs::read(folder.join("state")).unwrap());
    let without = without_old(unchecked);
    usage(&without.iter().map(String::as_str).collect::<Vec<_>>());
}

/// Carriers that the state doesn't belong to are refused, and so are damaged ones.
#[test]
fn what_does_not_belong_together_is_refused() {
    let (folder, _) = coded("apart", COUNT);
    let carriers = fs::read(folder.join("carriers")).unwrap();
    let packet = ["--packet", "0"];
    // the last frame of the input is not the one that the state is behind
    fs::write(folder.join("carriers"), &carriers[..2 * CARRIERS]).unwrap();
    refused(
        &words(&folder, &packet),
        &[],
        &["of frame 1", "the state is not"],
    );
    let mut damaged = carriers.clone();
    damaged[2 * CARRIERS + 500..][..400].fill(0);
    fs::write(folder.join("carriers"), &damaged).unwrap();
    refused(&words(&folder, &packet), &[], &["of frame 2", "damaged"]);
    let swapped = [
        &carriers[..CARRIERS],
        &carriers[2 * CARRIERS..],
        &carriers[CARRIERS..2 * CARRIERS],
    ];
    fs::write(folder.join("carriers"), swapped.concat()).unwrap();
    let more = ["--packet", "0", "--frame", "1"];
    refused(
        &words(&folder, &more),
        &[],
        &["of frame 1", "frame 2 is not"],
    );
    let mut large = carriers;
    large[2 * CARRIERS + 9] = 16;
    fs::write(folder.join("carriers"), large).unwrap();
    refused(
        &words(&folder, &more),
        &[],
        &["carrier 9 of frame 2", "refusal 10"],
    );
}

/// Frames go through as they come, two of them held at most: frame 0 is out before frame 2 is in.
#[test]
fn frames_go_through_as_they_come() {
    let (folder, stream) = coded("as-they-come", 3);
    let frames = fs::read(folder.join("carriers")).unwrap();
    let mut words = words(&folder, &["--packet", "3", "--frame", "0"]);
    // standard input in place of the file
    words.drain(1..3);
    let mut child = Command::new(env!("CARGO_BIN_EXE_warintaya"))
        .args(&words)
        .stdin(Stdio::piped())
        .stdout(Stdio::piped())
        .stderr(Stdio::null())
        .spawn()
        .unwrap();
    let (mut stdin, mut stdout) = (child.stdin.take().unwrap(), child.stdout.take().unwrap());
    stdin.write_all(&frames[..2 * CARRIERS]).unwrap();
    let mut replaced = vec![0; 2 * CARRIERS];
    stdout.read_exact(&mut replaced).unwrap();
    stdin.write_all(&frames[2 * CARRIERS..]).unwrap();
    drop(stdin);
    stdout.read_to_end(&mut replaced).unwrap();
    assert!(child.wait().unwrap().success());
    let (carriers, _) = again(&folder, &stream, 3);
    assert!(replaced == carriers);
    let (status, _, _) = run(&words, &frames[..CARRIERS - 1]);
    assert_eq!(status, 1);
}
