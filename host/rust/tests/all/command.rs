//! The command on files and pipes: what it writes, what it says, and its status.

use crate::common::packets;
use crate::running::{folder, ok, options, path, refused, run, usage};
use second::random::Random;
use std::fs;
use std::process::{Command, Stdio};
use warintaya::{Coder, Layer, LayerName, Receiver, PACKET, SLOT};

/// Five settings, and their layers.
const SETTINGS: [[&str; 4]; 5] = [
    ["1", "qpsk", "1/2", "1"],
    ["1", "16qam", "3/4", "3"],
    ["2", "64qam", "2/3", "1"],
    ["3", "qpsk", "5/6", "2"],
    ["1", "64qam", "7/8", "13"],
];

fn layer(place: usize) -> Layer {
    let numbers = [
        [1, 2, 1, 1],
        [1, 4, 3, 3],
        [2, 6, 2, 1],
        [3, 2, 4, 2],
        [1, 6, 5, 13],
    ];
    let [mode, v, rate, segments] = numbers[place];
    Layer::new(mode, v, rate, segments).expect("legal settings")
}

/// Streams that end anywhere in a frame come back byte for byte, through `code` and `back` with no further options.
#[test]
fn streams_come_back() {
    let mut random = Random::new(31);
    for (place, settings) in SETTINGS.into_iter().enumerate() {
        let count = layer(place).packets();
        for length in [
            0,
            1,
            count - 12,
            count - 11,
            count - 1,
            count,
            count + 1,
            2 * count - 12,
        ] {
            let stream = packets(&mut random, length);
            let carriers = ok(&options("code", settings, &[]), &stream);
            let least = if length == 0 {
                0
            } else {
                (length + 12 + count - 1) / count
            };
            assert_eq!(carriers.len(), least * layer(place).carriers());
            let back = ok(&options("back", settings, &[]), &carriers);
            assert!(back == stream, "{settings:?}, {length} packets");
        }
    }
}

/// The two connected by a pipe.
#[test]
fn streams_come_back_through_a_pipe() {
    let folder = folder("pipe");
    let stream = packets(&mut Random::new(32), 1000);
    fs::write(folder.join("stream"), &stream).unwrap();
    let command = || Command::new(env!("CARGO_BIN_EXE_warintaya"));
    let mut code = command()
        .args(options("code", SETTINGS[3], &["--quiet", "-i"]))
        .arg(folder.join("stream"))
        .stdout(Stdio::piped())
        .spawn()
        .unwrap();
    let back = command()
        .args(options("back", SETTINGS[3], &["--quiet"]))
        .stdin(code.stdout.take().unwrap())
        .output()
        .unwrap();
    assert!(code.wait().unwrap().success() && back.status.success());
    assert!(back.stdout == stream && back.stderr.is_empty());
}

/// Carriers and slots are the crate's; a packet that can't be had is marked, or left out.
#[test]
fn carriers_and_slots_are_the_crates() {
    let mut random = Random::new(33);
    let (mut given, mut lost) = (0, 0);
    for (place, settings) in SETTINGS.into_iter().enumerate() {
        let layer = layer(place);
        let frame = packets(&mut random, layer.packets());
        let mut carriers = vec![0; layer.carriers()];
        let coded = Coder::new(layer).code(LayerName::A, &frame, &mut carriers);
        coded.unwrap();
        assert!(ok(&options("code", settings, &["--exact"]), &frame) == carriers);
        carriers
            .iter_mut()
            .step_by(9)
            .for_each(|carrier| *carrier ^= 1);
        let received = Receiver::new(layer).receive(LayerName::A, &carriers);
        let received = received.unwrap();
        let slots = ok(&options("back", settings, &["--slots"]), &carriers);
        assert!(slots == received.slots());
        let (mut marked, mut left) = (Vec::new(), Vec::new());
        for slot in slots.chunks(SLOT) {
            given += 1;
            if slot[0] <= 8 {
                marked.extend(&slot[1..]);
                left.extend(&slot[1..]);
            } else {
                lost += 1;
                marked.extend([&[0x47, 0x9F, 0xFF, 0x10][..], &[0xFF; 184]].concat());
            }
        }
        assert!(ok(&options("back", settings, &[]), &carriers) == marked);
        assert!(ok(&options("back", settings, &["--leave-out-lost"]), &carriers) == left);
    }
    assert!(0 < lost && lost < given, "{lost} of {given}");
}

/// Padding is null packets, and they are left out unless one asks for them.
#[test]
fn padding_is_null_packets() {
    let stream = packets(&mut Random::new(37), 1);
    let carriers = ok(&options("code", SETTINGS[1], &[]), &stream);
    let all = ok(
        &options("back", SETTINGS[1], &["--keep-padding"]),
        &carriers,
    );
    assert_eq!(all.len(), PACKET * (layer(1).packets() - 12));
    assert!(all[..PACKET] == stream);
    let null = |packet: &[u8]| packet[..4] == [0x47, 0x1F, 0xFF, 0x10];
    assert!(all.chunks(PACKET).skip(1).all(null));
    // a stream that has padding of its own is told what becomes of it
    let (status, _, said) = run(&options("code", SETTINGS[1], &[]), &all);
    assert!(status == 0 && said.contains("padding themselves"), "{said}");
}

/// A refused run leaves the old file, and nothing beside it.
#[test]
fn files_are_written_whole_or_not() {
    let folder = folder("files");
    let (input, output) = (path(&folder, "stream"), path(&folder, "carriers"));
    let mut stream = packets(&mut Random::new(35), 40);
    fs::write(&output, "from before").unwrap();
    stream[30 * PACKET] = 0x48;
    fs::write(&input, &stream).unwrap();
    let words = options("code", SETTINGS[0], &["-i", &input, "-o", &output]);
    refused(&words, &[], &["packet 30", "48", "byte 5640", "refusal 8"]);
    assert_eq!(fs::read(&output).unwrap(), b"from before");
    // nor does a run that can't keep its state
    let kept = options(
        "code",
        SETTINGS[0],
        &["--fill", "-o", &output, "--state", "/nowhere/at/all"],
    );
    refused(&kept, &stream[..PACKET], &["/nowhere/at/all"]);
    assert_eq!(fs::read(&output).unwrap(), b"from before");
    stream[30 * PACKET] = 0x47;
    fs::write(&input, &stream).unwrap();
    assert!(ok(&words, &[]).is_empty());
    let back = ok(&options("back", SETTINGS[0], &["-i", &output]), &[]);
    assert!(back == stream);
    assert_eq!(fs::read_dir(&folder).unwrap().count(), 2);
}

/// Bad input is told with its place, and the status is 1.
#[test]
fn what_is_wrong_is_told() {
    let stream = packets(&mut Random::new(36), 24);
    let code = options("code", SETTINGS[0], &[]);
    let back = options("back", SETTINGS[0], &[]);
    refused(&code, &stream[1..], &["packet 0", "byte 0", "refusal 8"]);
    refused(
        &back,
        &[0; 20000],
        &["frame 1", "byte 19584", "416 carriers", "refusal 6"],
    );
    let mut carriers = vec![3; 2 * 19584];
    carriers[19590] = 4;
    refused(
        &back,
        &carriers,
        &[
            "carrier 6 of frame 1",
            "value 4",
            "byte 19590",
            "refusal 10",
        ],
    );
}

/// Settings that are not legal are refused with their number, and files that are not there with their name.
#[test]
fn settings_and_files_are_refused() {
    let wrong = [
        (["4", "qpsk", "1/2", "1"], "refusal 1"),
        (["1", "qpsk", "1/2", "0"], "refusal 4"),
        (["1", "qpsk", "1/2", "14"], "refusal 4"),
    ];
    for (settings, words) in wrong {
        for name in ["code", "back", "frames"] {
            refused(&options(name, settings, &[]), &[], &[words]);
        }
    }
    let stream = packets(&mut Random::new(39), 1);
    for option in ["-i", "-o", "--state"] {
        let words = options("code", SETTINGS[0], &["--fill", option, "/nowhere/at/all"]);
        refused(&words, &stream, &["/nowhere/at/all"]);
    }
}

/// What is not understood has status 2.
#[test]
fn usage_is_told() {
    usage(&[]);
    usage(&["transmit"]);
    usage(&["code", "--mode", "1"]);
    usage(&["code", "--mode"]);
    usage(&["code", "stream.ts"]);
    usage(&["demo", "--loud"]);
    for words in [["--fill", "--exact"], ["--quiet", "--quiet"]] {
        let words = options("code", SETTINGS[0], &words);
        usage(&words.iter().map(String::as_str).collect::<Vec<_>>());
    }
}

#[test]
fn sizes_help_and_the_demonstration() {
    let table = String::from_utf8(ok(&["frames".to_string()], &[])).unwrap();
    // the names, all settings, an empty line, and the times of three modes
    assert_eq!(table.lines().count(), 590);
    let row = String::from_utf8(ok(
        &options("frames", ["3", "64qam", "7/8", "13"], &[]),
        &[],
    ))
    .unwrap();
    let last: Vec<&str> = row.lines().nth(1).unwrap().split_whitespace().collect();
    assert_eq!(
        last[..7],
        ["3", "64qam", "7/8", "13", "3276", "615888", "1018368"]
    );
    for name in ["code", "back", "replace", "frames", "demo"] {
        let help = String::from_utf8(ok(&[name, "--help"].map(String::from), &[])).unwrap();
        assert!(help.starts_with(&format!("warintaya {name}: ")));
    }
    let help = String::from_utf8(ok(&["--help".to_string()], &[])).unwrap();
    assert!(help.contains("warintaya replace") && help.contains("Status"));
    let (status, shown, _) = run(&["demo".to_string()], &[]);
    let shown = String::from_utf8(shown).unwrap();
    assert_eq!(status, 0);
    assert_eq!(shown.matches("  yes  ").count(), 15);
    // the letter's story: counted by the old frame, the valley's news is another line
    for line in [
        "  21:00  News of the valley",
        "  20:30  The river, told by those who live on it",
    ] {
        assert_eq!(shown.lines().filter(|shown| *shown == line).count(), 1);
    }
}
