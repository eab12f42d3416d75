//! What the command tells of each frame that it receives, and a run that fails where packets are lost.

use std::fs;
use std::path::Path;
use std::process::Command;
use std::thread;

use crate::common::packets;
use crate::layers::{files, two, words, TWO};
use crate::running::{folder, ok, options, path, refused, run, usage};
use second::random::Random;
use warintaya::{Coder, Layer, LayerName};

const SETTINGS: [&str; 4] = ["1", "16qam", "3/4", "3"];

fn layer() -> Layer {
    Layer::new(1, 4, 3, 3).unwrap()
}

/// So many frames of random packets of a layer, coded.
fn frames(layer: Layer, count: usize, seed: u64) -> Vec<Vec<u8>> {
    let (mut coder, mut random) = (Coder::new(layer), Random::new(seed));
    let mut frame = || {
        let packets = packets(&mut random, layer.packets());
        let mut carriers = vec![0; layer.carriers()];
        coder.code(LayerName::A, &packets, &mut carriers).unwrap();
        carriers
    };
    (0..count).map(|_| frame()).collect()
}

/// Turns so many bits of a frame, each another one, spread over all of it.
fn turn(frame: &mut [u8], bits: usize, v: u8, random: &mut Random) {
    let step = frame.len() / bits.max(1);
    for place in 0..bits {
        frame[place * step] ^= 1 << random.below(u64::from(v));
    }
}

/// The numbers of a line, by their names in it.
fn number(line: &str, name: &str) -> Option<u64> {
    let value = line.split(&format!("\"{name}\":")).nth(1).unwrap();
    let value = value.split([',', '}']).next();
    match value.unwrap() {
        "null" => None,
        number => Some(number.parse().unwrap()),
    }
}

fn lines(path: &str) -> Vec<String> {
    let text = fs::read_to_string(path).unwrap();
    text.lines().map(String::from).collect()
}

/// The wrong bits that are told are those that were turned, where they can be known; the first and the last frame's are not.
#[test]
fn wrong_bits_are_those_that_were_turned() {
    let folder = folder("json");
    let json = path(&folder, "lines");
    let (layer, mut random) = (layer(), Random::new(91));
    let turned = [3, 0, 40, 1, 150, 0, 200, 7];
    let mut sent = frames(layer, turned.len(), 92);
    for (frame, bits) in sent.iter_mut().zip(turned) {
        turn(frame, bits, layer.v(), &mut random);
    }
    let back = options("back", SETTINGS, &["--json", &json, "--quiet"]);
    let plain = options("back", SETTINGS, &["--quiet"]);
    assert!(ok(&back, &sent.concat()) == ok(&plain, &sent.concat()));
    let told = lines(&json);
    assert_eq!(told.len(), turned.len());
    let first = "{\"layer\":\"A\",\"frame\":0,\"given\":96,\"corrected\":";
    assert!(told[0].starts_with(first), "{}", told[0]);
    for (place, (line, bits)) in told.iter().zip(turned).enumerate() {
        let known = 0 < place && place + 1 < turned.len();
        let wrong = known.then_some(bits as u64);
        assert_eq!(number(line, "wrong_bits"), wrong, "{line}");
        assert_eq!(number(line, "frame"), Some(place as u64));
        let given = if place == 0 { 96 } else { 108 };
        assert_eq!(number(line, "given"), Some(given));
        assert_eq!(number(line, "lost"), Some(0));
    }
}

/// The counts of the lines are those of the run. Where a packet was lost, the frame and the one behind it have no wrong bits.
#[test]
fn lost_packets_are_counted_and_leave_bits_unknown() {
    let folder = folder("json-lost");
    let json = path(&folder, "lines");
    let layer = layer();
    let mut sent = frames(layer, 9, 93);
    turn(&mut sent[7], 900, layer.v(), &mut Random::new(98));
    // the beginning of frame 4, so that its first packets are lost, and the last of frame 3
    sent[4][..9000].iter_mut().for_each(|value| *value ^= 15);
    let back = options("back", SETTINGS, &["--json", &json]);
    let (status, _, said) = run(&back, &sent.concat());
    assert_eq!(status, 0);
    let told = lines(&json);
    let sum = |name: &str| -> u64 { told.iter().filter_map(|line| number(line, name)).sum() };
    let words = format!(
        "{} bytes corrected in {} packets, {} packets lost, {} without 47",
        sum("corrected"),
        sum("mended"),
        sum("lost"),
        sum("wrong_start")
    );
    assert!(said.contains(&words), "{words} is not in: {said}");
    assert_eq!(sum("given"), 96 + 8 * 108);
    assert!(sum("lost") > 0);
    let known = told.iter().map(|line| number(line, "wrong_bits").is_some());
    let known: Vec<bool> = known.collect();
    let lost: Vec<bool> = (0..9).map(|frame| (3..=4).contains(&frame)).collect();
    for frame in 1..8 {
        assert_eq!(known[frame], !lost[frame] && !lost[frame - 1], "{told:?}");
    }
}

/// Several layers, and a run that goes on from a record: frames are counted within the run.
#[test]
fn layers_and_records() {
    let folder = folder("json-layers");
    let (json, state) = (path(&folder, "lines"), path(&folder, "state"));
    let (turned, mut random) = ([2, 5, 0, 9, 4, 6], Random::new(94));
    for (name, layer) in two().used() {
        let mut sent = frames(layer, 6, 95);
        for (frame, bits) in sent.iter_mut().zip(turned) {
            turn(frame, bits, layer.v(), &mut random);
        }
        for (part, frames) in ["0", "1"].into_iter().zip(sent.chunks(3)) {
            fs::write(folder.join(format!("{name}.{part}")), frames.concat()).unwrap();
        }
    }
    for (part, turned) in ["0", "1"].into_iter().zip(turned.chunks(3)) {
        let more = ["--json", &json, "--state", &state, "--quiet"];
        let back = words("back", &TWO, &more);
        ok(
            &[back, files(&folder, &["A", "B"], part, "back")].concat(),
            &[],
        );
        let told = lines(&json);
        assert_eq!(told.len(), 6);
        for (letter, first) in [("A", [4, 16]), ("B", [96, 108])] {
            let layer = format!("\"layer\":\"{letter}\"");
            let own: Vec<&String> = told.iter().filter(|line| line.contains(&layer)).collect();
            let wrong: Vec<Option<u64>> =
                own.iter().map(|line| number(line, "wrong_bits")).collect();
            assert_eq!(wrong, [None, Some(turned[1] as u64), None]);
            let frames = own.iter().filter_map(|line| number(line, "frame"));
            assert!(frames.eq(0..3));
            let place = usize::from(part == "1");
            assert_eq!(number(own[0], "given"), Some(first[place]));
        }
    }
}

/// The lines may go to standard output and into a pipe; nothing is read and written, or written twice.
#[test]
fn where_lines_go() {
    let folder = folder("json-places");
    let [out, pipe, input, new] = ["out", "pipe", "input", "new"].map(|name| path(&folder, name));
    let carriers = frames(layer(), 3, 96).concat();
    let back = |more: &[&str]| options("back", SETTINGS, &[&["--quiet"], more].concat());
    let shown = ok(&back(&["--json", "-", "-o", &out]), &carriers);
    assert_eq!(String::from_utf8(shown.clone()).unwrap().lines().count(), 3);
    assert!(Command::new("mkfifo")
        .arg(&pipe)
        .status()
        .unwrap()
        .success());
    let reader = {
        let pipe = pipe.clone();
        thread::spawn(move || fs::read(pipe).unwrap())
    };
    ok(&back(&["--json", &pipe]), &carriers);
    assert!(reader.join().unwrap() == shown);
    fs::write(&input, &carriers).unwrap();
    let same = path(&folder, "./input");
    for words in [
        &["--json", "-"][..],
        &["--json", &out, "-o", &out],
        &["--json", &new, "--state", &new],
        &["-i", &input, "--json", &same],
    ] {
        let words = back(words);
        usage(&words.iter().map(String::as_str).collect::<Vec<_>>());
    }
    assert!(fs::read(&input).unwrap() == carriers);
    let nowhere = "/nowhere/at/all";
    refused(&back(&["--json", nowhere]), &carriers, &[nowhere]);
    // a run that fails has told of the frames before
    let json = path(&folder, "lines");
    refused(&back(&["--json", &json]), &carriers[1..], &["refusal 6"]);
    assert_eq!(lines(&json).len(), 2);
}

/// A run fails where packets were lost, if that is asked for, and all is written as ever.
#[test]
fn loss_is_a_failure_where_it_is_asked_for() {
    let folder = folder("fail-on-loss");
    let [out, state] = ["out", "state"].map(|name| path(&folder, name));
    let mut carriers = frames(layer(), 2, 97).concat();
    let back = options("back", SETTINGS, &[]);
    let more = ["--fail-on-loss", "--quiet", "--state", &state, "-o", &out];
    let failing = options("back", SETTINGS, &more);
    assert!(ok(&failing, &carriers).is_empty());
    fs::remove_file(&state).unwrap();
    carriers[20000..30000]
        .iter_mut()
        .for_each(|value| *value ^= 15);
    let (status, written, said) = run(&back, &carriers);
    let lost = said.split(" packets lost").next().unwrap();
    let lost: u64 = lost.rsplit(' ').next().unwrap().parse().unwrap();
    let without = said.split(" without 47").next().unwrap();
    let without: u64 = without.rsplit(' ').next().unwrap().parse().unwrap();
    assert!(status == 0 && lost > 1, "{said}");
    let (status, _, said) = run(&failing, &carriers);
    let told = format!("warintaya back: {} packets were lost", lost + without);
    assert!(status == 1 && said.starts_with(&told), "{said}");
    assert_eq!(said.lines().count(), 1);
    assert!(fs::read(&out).unwrap() == written && Path::new(&state).exists());
}
