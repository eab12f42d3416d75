//! The command with several layers: their files, in turn and in pipes.

use std::fs;
use std::process::{Command, Stdio};

use crate::common::packets;
use crate::layers::{files, read, streams, three, words, THREE, TWO};
use crate::running::{folder, ok, options, path, run};
use second::random::Random;
use warintaya::{Coder, LayerName, Receiver};

/// Streams of different lengths in three layers: each layer's carriers are those of the layer alone, and they come back.
#[test]
fn layers_are_those_of_the_layer_alone() {
    let folder = folder("layers");
    let letters = ["A", "B", "C"];
    let counts = [("A", 3 * 84 + 80), ("B", 0), ("C", 70)];
    let sent = streams(&folder, &counts, 51);
    let code = [
        words("code", &THREE, &[]),
        files(&folder, &letters, "ts", "carriers"),
    ]
    .concat();
    assert_eq!(run(&code, &[]), (0, vec![], String::new()));
    let alone = [
        ["2", "qpsk", "7/8", "1"],
        ["2", "16qam", "1/2", "3"],
        ["2", "64qam", "5/6", "1"],
    ];
    for ((letter, settings), stream) in letters.into_iter().zip(alone).zip(&sent) {
        let carriers = ok(&options("code", settings, &[]), stream);
        let ours = read(&folder, &format!("{letter}.carriers"));
        assert!(ours == carriers, "layer {letter}");
    }
    let back = [
        words("back", &THREE, &[]),
        files(&folder, &letters, "carriers", "back"),
    ]
    .concat();
    ok(&back, &[]);
    for (letter, stream) in letters.into_iter().zip(&sent) {
        assert!(read(&folder, &format!("{letter}.back")) == *stream);
    }
    // nothing is left beside the files
    assert_eq!(fs::read_dir(&folder).unwrap().count(), 9);
}

/// The lines at the end name the layers, where there are several.
#[test]
fn what_was_done_is_told_for_each_layer() {
    let folder = folder("layers-told");
    streams(&folder, &[("A", 16), ("B", 20)], 52);
    let letters = ["A", "B"];
    let code = [
        words("code", &TWO, &[]),
        files(&folder, &letters, "ts", "carriers"),
    ]
    .concat();
    let (status, written, said) = run(&code, &[]);
    assert!(status == 0 && written.is_empty());
    let lines: Vec<&str> = said.lines().collect();
    assert_eq!(lines.len(), 2, "{said}");
    assert!(lines[0].starts_with("code: layer A: 16 packets and 16 of padding in 2 frames"));
    assert!(lines[1].starts_with("code: layer B: 20 packets and 88 of padding in 1 frame of"));
    let back = [
        words("back", &TWO, &[]),
        files(&folder, &letters, "carriers", "back"),
    ]
    .concat();
    let (_, _, said) = run(&back, &[]);
    assert!(said.contains("back: layer A: 20 packets from 2 frames, 16 written"));
    assert!(said.contains("back: layer B: 96 packets from 1 frame, 20 written"));
}

/// The record holds all layers: they go on together or one by one, and those that have no files stay.
#[test]
fn records_are_kept_between_runs() {
    let folder = folder("layers-record");
    let (coding, receiving) = (path(&folder, "coding"), path(&folder, "receiving"));
    let (station, mut random) = (three(), Random::new(53));
    let (mut coder, mut receiver) = (Coder::new(station), Receiver::new(station));
    let mut settings = THREE.to_vec();
    for letters in [&["A", "B"][..], &["C"], &["A", "B", "C"], &["B"]] {
        for letter in letters {
            let name = LayerName::from_letter(letter.chars().next().unwrap()).unwrap();
            let layer = station.layer(name).unwrap();
            let frame = packets(&mut random, layer.packets());
            let mut carriers = vec![0; layer.carriers()];
            coder.code(name, &frame, &mut carriers).unwrap();
            receiver.receive(name, &carriers).unwrap();
            fs::write(folder.join(format!("{letter}.ts")), &frame).unwrap();
        }
        for (name, state, from, to) in [
            ("code", &coding, "ts", "carriers"),
            ("back", &receiving, "carriers", "back"),
        ] {
            let more = files(&folder, letters, from, to);
            ok(
                &[words(name, &settings, &["--state", state]), more].concat(),
                &[],
            );
        }
        assert!(fs::read(&coding).unwrap() == coder.record());
        assert!(fs::read(&receiving).unwrap() == receiver.record());
        // the record has the settings, so that they need not be given
        settings = vec!["--quiet"];
    }
}

/// One layer of several through standard input and output, and one of them through standard input.
#[test]
fn one_layer_may_be_read_and_written_as_a_pipe() {
    let folder = folder("layers-standard");
    let sent = streams(&folder, &[("A", 30), ("B", 200)], 54);
    let both = [
        words("code", &TWO, &[]),
        files(&folder, &["A", "B"], "ts", "carriers"),
    ]
    .concat();
    ok(&both, &[]);
    for (letter, stream) in ["A", "B"].into_iter().zip(&sent) {
        let carriers = read(&folder, &format!("{letter}.carriers"));
        let input = format!("{letter}={}", path(&folder, &format!("{letter}.ts")));
        assert!(ok(&words("code", &TWO, &["-i", &input]), &[]) == carriers);
        let output = path(&folder, "out");
        let named = format!("{letter}={output}");
        ok(&words("code", &TWO, &["-o", &named]), stream);
        assert!(fs::read(&output).unwrap() == carriers);
        let both = [format!("{letter}=-"), format!("{letter}=-")];
        let more = ["-i", &both[0], "-o", &both[1]];
        assert!(ok(&words("back", &TWO, &more), &carriers) == *stream);
    }
    let mut from_pipe = both.clone();
    let place = both.iter().position(|word| word.ends_with("B.ts"));
    from_pipe[place.unwrap()] = "B=-".to_string();
    let carriers = read(&folder, "B.carriers");
    fs::remove_file(folder.join("B.carriers")).unwrap();
    ok(&from_pipe, &sent[1]);
    assert!(read(&folder, "B.carriers") == carriers);
}

/// Both layers through named pipes: the carriers of one end long before those of the other, and nobody waits for ever.
#[test]
fn layers_go_through_named_pipes() {
    let folder = folder("layers-pipes");
    // frames are larger than a pipe, the first layer's only one is followed by another one of padding, and the others go on
    let sent = streams(&folder, &[("A", 40), ("B", 96 * 6 + 90), ("C", 50)], 55);
    let settings = [
        "--mode",
        "3",
        "--quiet",
        "--layer",
        "A=qpsk,1/2,1",
        "--layer",
        "B=qpsk,1/2,2",
        "--layer",
        "C=qpsk,1/2,1",
    ];
    let letters = ["A", "B", "C"];
    for letter in letters {
        let pipe = path(&folder, &format!("{letter}.pipe"));
        assert!(Command::new("mkfifo").arg(pipe).status().unwrap().success());
    }
    let spawn = |name: &str, from: &str, to: &str| {
        let words = [
            words(name, &settings, &[]),
            files(&folder, &letters, from, to),
        ]
        .concat();
        let mut command = Command::new("timeout");
        command.args(["60", env!("CARGO_BIN_EXE_warintaya")]);
        command.args(words).stdin(Stdio::null()).spawn().unwrap()
    };
    let (mut code, mut back) = (spawn("code", "ts", "pipe"), spawn("back", "pipe", "back"));
    assert!(code.wait().unwrap().success() && back.wait().unwrap().success());
    for (letter, stream) in letters.into_iter().zip(&sent) {
        assert!(read(&folder, &format!("{letter}.back")) == *stream);
    }
}

/// A row for each layer, and the sum of the segments, which is told also where it is too large.
#[test]
fn frames_of_a_station() {
    let shown = |segments: &str| {
        let layer = format!("B=64qam,3/4,{segments}");
        let settings = ["--mode", "1", "--layer", &layer, "--layer", "A=qpsk,2/3,1"];
        let (status, table, said) = run(&words("frames", &settings, &[]), &[]);
        let table = String::from_utf8(table).unwrap();
        let rows: Vec<Vec<String>> = table
            .lines()
            .map(|line| line.split_whitespace().map(String::from).collect())
            .collect();
        (status, rows, said)
    };
    let (status, rows, said) = shown("12");
    assert_eq!((status, said.as_str(), rows.len()), (0, "", 6));
    assert_eq!(rows[0][..3], ["layer", "mode", "modulation"]);
    assert_eq!(
        rows[1][..8],
        ["A", "1", "qpsk", "2/3", "1", "16", "3008", "19584"]
    );
    assert_eq!(
        rows[2][..8],
        ["B", "1", "64qam", "3/4", "12", "648", "121824", "235008"]
    );
    assert_eq!(rows[3], ["sum", "13"]);
    let (status, rows, said) = shown("13");
    assert_eq!((status, rows.len()), (1, 6));
    assert_eq!(rows[3], ["sum", "14"]);
    assert!(said.contains("refusal 12") && said.lines().count() == 1);
}
