//! `warintaya replace` on files: it equals coding again.

use std::fs;
use std::path::{Path, PathBuf};

use crate::common::packets;
use crate::layers::{files, read, streams, two, words as layer_words, TWO};
use crate::running::{folder, ok, options, path, refused, usage};
use second::random::Random;
use warintaya::{Coder, Station, PACKET, UNUSED};

pub const SETTINGS: [&str; 4] = ["1", "16qam", "3/4", "1"];
pub const COUNT: usize = 36;
pub const CARRIERS: usize = 19584;

/// Three frames coded with their state kept: a folder with the files `carriers`, `state`, `old` and `new`, and the stream.
pub fn coded(name: &str, number: usize) -> (PathBuf, Vec<u8>) {
    let folder = folder(name);
    let mut random = Random::new(41);
    let stream = packets(&mut random, 3 * COUNT);
    let state = folder.join("state");
    let words = options("code", SETTINGS, &["--state", state.to_str().unwrap()]);
    fs::write(folder.join("carriers"), ok(&words, &stream)).unwrap();
    fs::write(folder.join("old"), &stream[PACKET * number..][..PACKET]).unwrap();
    fs::write(folder.join("new"), packets(&mut random, 1)).unwrap();
    (folder, stream)
}

/// The words of a replacement over the files of a folder.
pub fn words(folder: &Path, more: &[&str]) -> Vec<String> {
    let mut words = vec!["replace".to_string()];
    for (option, name) in [
        ("-i", "carriers"),
        ("--state", "state"),
        ("--old", "old"),
        ("--new", "new"),
    ] {
        words.extend([
            option.to_string(),
            folder.join(name).to_str().unwrap().to_string(),
        ]);
    }
    words.extend(more.iter().map(|word| word.to_string()));
    words
}

/// The stream with the packet replaced, coded again, and its state.
pub fn again(folder: &Path, stream: &[u8], number: usize) -> (Vec<u8>, Vec<u8>) {
    let mut changed = stream.to_vec();
    let new = fs::read(folder.join("new")).unwrap();
    changed[PACKET * number..][..PACKET].copy_from_slice(&new);
    let state = folder.join("again");
    let words = options("code", SETTINGS, &["--state", state.to_str().unwrap()]);
    (ok(&words, &changed), fs::read(state).unwrap())
}

/// In the last frame every packet can be replaced, and in a frame before it those that don't run on into the next.
#[test]
fn replacing_is_coding_again() {
    for (frame, number) in [(2, 0), (2, 20), (2, COUNT - 1), (0, 0), (1, 10)] {
        let place = frame * COUNT + number;
        let (folder, stream) = coded(&format!("replace-{place}"), place);
        let (packet, frame) = (number.to_string(), frame.to_string());
        let replaced = ok(
            &words(&folder, &["--packet", &packet, "--frame", &frame]),
            &[],
        );
        let (carriers, state) = again(&folder, &stream, place);
        assert!(replaced == carriers, "frame {frame}, packet {number}");
        assert!(fs::read(folder.join("state")).unwrap() == state);
    }
}

/// The last frame is meant where nothing is said, and the file may be replaced by itself.
#[test]
fn a_file_is_replaced_in_place() {
    let place = 3 * COUNT - 2;
    let (folder, stream) = coded("in-place", place);
    let file = folder.join("carriers");
    let number = (COUNT - 2).to_string();
    let more = ["--packet", &number, "-o", file.to_str().unwrap()];
    assert!(ok(&words(&folder, &more), &[]).is_empty());
    let (carriers, state) = again(&folder, &stream, place);
    assert!(fs::read(&file).unwrap() == carriers);
    assert!(fs::read(folder.join("state")).unwrap() == state);
    // the frame behind it goes on from the replaced state
    let next = packets(&mut Random::new(42), COUNT);
    let state = |name: &str| folder.join(name).to_str().unwrap().to_string();
    let one = ok(
        &options("code", SETTINGS, &["--state", &state("state")]),
        &next,
    );
    let other = ok(
        &options("code", SETTINGS, &["--state", &state("again")]),
        &next,
    );
    assert!(one == other);
}

/// Another packet stands at a place of a layer's stream; the old one and the new one are in the files `old` and `new`.
fn change(folder: &Path, letter: &str, place: usize, random: &mut Random) {
    let name = format!("{letter}.ts");
    let mut stream = read(folder, &name);
    let packet = &mut stream[PACKET * place..][..PACKET];
    let new = packets(random, 1);
    fs::write(folder.join("old"), &*packet).unwrap();
    fs::write(folder.join("new"), &new).unwrap();
    packet.copy_from_slice(&new);
    fs::write(folder.join(&name), &stream).unwrap();
}

/// A packet of one layer of a station's record: it equals coding again, and the other layers stay.
#[test]
fn a_layer_of_several_is_replaced() {
    let folder = folder("replace-layer");
    let mut random = Random::new(44);
    streams(&folder, &[("A", 48), ("B", 3 * 108)], 45);
    let code = |state: &str| {
        let code = layer_words("code", &TWO, &["--state", &path(&folder, state)]);
        let files = files(&folder, &["A", "B"], "ts", "carriers");
        ok(&[code, files].concat(), &[]);
    };
    let carriers = || ["A.carriers", "B.carriers"].map(|name| read(&folder, name));
    code("state");
    for (letter, frame, number) in [("A", 2, 15), ("B", 2, 100), ("B", 0, 0), ("A", 2, 8)] {
        let count = if letter == "A" { 16 } else { 108 };
        change(&folder, letter, frame * count + number, &mut random);
        let numbers = [number, frame].map(|number| number.to_string());
        let more = ["--packet", &numbers[0], "--frame", &numbers[1]];
        let mut words = words(&folder, &[&more[..], &["--layer", letter]].concat());
        // the layer's file, with its name and without
        let file = path(&folder, &format!("{letter}.carriers"));
        words[2] = format!("{letter}={file}");
        words.extend(["-o".to_string(), file]);
        ok(&words, &[]);
        let replaced = carriers();
        let _ = fs::remove_file(folder.join("again"));
        code("again");
        assert!(replaced == carriers());
        assert!(read(&folder, "state") == read(&folder, "again"));
    }
}

/// The layer has to be said where several are used, and has to be one that is used.
#[test]
fn layers_are_refused() {
    let (folder, _) = coded("refused-layers", 0);
    fs::write(folder.join("state"), Coder::new(two()).record()).unwrap();
    let state = fs::read(folder.join("state")).unwrap();
    let used = |more: &[&str]| {
        let words = words(&folder, &[&["--packet", "0"], more].concat());
        usage(&words.iter().map(String::as_str).collect::<Vec<_>>());
    };
    used(&[]);
    used(&["--layer", "D"]);
    used(&["--layer", "b"]);
    used(&["--layer", "B=64qam,3/4,2"]);
    used(&["--layer", "A", "--layer", "A"]);
    used(&["--layer", "A", "-o", "B=out"]);
    used(&["--layer", "A", "-o", "A=out", "-o", "out"]);
    let refuse = |more: &[&str], told: &[&str]| {
        let words = words(&folder, &[&["--packet", "0"], more].concat());
        refused(&words, &[], told);
    };
    refuse(&["--layer", "C"], &["layer C is not used", "refusal 13"]);
    refuse(&["--layer", "B", "-o", "C=out"], &["layer C", "refusal 13"]);
    // three frames of 16QAM are neither whole frames of layer B nor carriers of layer A
    refuse(
        &["--layer", "B"],
        &["replace: layer B: frame 1", "refusal 6"],
    );
    refuse(
        &["--layer", "A"],
        &["replace: layer A: carrier", "refusal 10"],
    );
    let other = ["--layer", "A", "--modulation", "qpsk"];
    refuse(&other, &["mode 1; A: QPSK", "other settings"]);
    assert!(fs::read(folder.join("state")).unwrap() == state);
    let empty = Station::new(1, [UNUSED; 3]).unwrap();
    fs::write(folder.join("state"), Coder::new(empty).record()).unwrap();
    refuse(&[], &["no layer is used", "refusal 13"]);
}

/// Numbers and settings that are refused leave the state.
#[test]
fn numbers_are_refused() {
    let (folder, _) = coded("refused", COUNT - 1);
    let state = fs::read(folder.join("state")).unwrap();
    let cases: [(&[&str], &str); 4] = [
        (&["--packet", "36"], "no packet 36"),
        (&["--packet", "0", "--frame", "3"], "no frame 3"),
        (&["--packet", "35", "--frame", "0"], "runs on into frame 1"),
        (
            &["--packet", "0", "--mode", "2"],
            "mode 1, 16QAM, rate 3/4, 1 segment",
        ),
    ];
    for (more, told) in cases {
        refused(&words(&folder, more), &[], &[told]);
    }
    let without = words(&folder, &[]);
    usage(&without.iter().map(String::as_str).collect::<Vec<_>>());
    assert!(fs::read(folder.join("state")).unwrap() == state);
    fs::remove_file(folder.join("state")).unwrap();
    refused(&words(&folder, &["--packet", "0"]), &[], &["there is no"]);
}

/// Files that are refused leave the state.
#[test]
fn files_are_refused() {
    let (folder, _) = coded("refused-files", 0);
    let state = fs::read(folder.join("state")).unwrap();
    let good = fs::read(folder.join("carriers")).unwrap();
    let mut large = good.clone();
    large[2 * CARRIERS + 5] = 16;
    let cases: [(&str, &[u8], &[&str]); 5] = [
        ("old", &[0x47; 187], &["187", "188", "refusal 5"]),
        ("old", &[0x46; 188], &["46", "refusal 8"]),
        (
            "carriers",
            &large,
            &["carrier 5 of frame 2", "byte 39173", "refusal 10"],
        ),
        (
            "carriers",
            &good[..CARRIERS + 1],
            &["frame 1", "byte 19584", "refusal 6"],
        ),
        ("carriers", &[], &["no frame", "refusal 6"]),
    ];
    for (name, bytes, told) in cases {
        let before = fs::read(folder.join(name)).unwrap();
        fs::write(folder.join(name), bytes).unwrap();
        refused(&words(&folder, &["--packet", "0"]), &[], told);
        fs::write(folder.join(name), before).unwrap();
    }
    assert!(fs::read(folder.join("state")).unwrap() == state);
}
