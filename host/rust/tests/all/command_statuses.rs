//! Statuses by one rule, and what is said in one line.

use std::fs;

use crate::common::packets;
use crate::layers::TWO;
use crate::live::{script, script_refused};
use crate::running::{folder, ok, options, path, refused, run, usage};
use second::random::Random;
use warintaya::{Coder, Layer, CODING_RECORD, PACKET};

const SETTINGS: [&str; 4] = ["1", "qpsk", "1/2", "1"];

/// Which setting, its refusal, what can be given, and what can't.
const WRONG: [(usize, &str, &str, &str); 4] = [
    (
        0,
        "refusal 1",
        "1, 2 or 3",
        "0 4 7 256 -1 x 1.0 99999999999999999999999",
    ),
    (1, "refusal 2", "qpsk, 16qam or 64qam", "8psk QAM 2 dqpsk"),
    (
        2,
        "refusal 3",
        "1/2, 2/3, 3/4, 5/6 or 7/8",
        "9/10 4/5 0 1 half",
    ),
    (
        3,
        "refusal 4",
        "1 to 13",
        "0 14 256 -1 one 1.5 99999999999999999999999",
    ),
];

/// Settings that are not legal are refused with their number, however they are written, and with what can be given.
#[test]
fn settings_are_refused_with_their_numbers() {
    let state = path(&folder("statuses"), "state");
    let layer = Layer::new(1, 2, 1, 1).unwrap();
    fs::write(&state, Coder::new(layer).record()).unwrap();
    for (place, number, legal, values) in WRONG {
        for value in values.split(' ') {
            let mut settings = SETTINGS;
            settings[place] = value;
            let told = [number, legal, value];
            let [mode, modulation, rate, segments] = settings;
            let layer = format!("B={modulation},{rate},{segments}");
            for name in ["code", "back", "frames"] {
                refused(&options(name, settings, &[]), &[], &told);
                let words = [name, "--mode", mode, "--layer", &layer].map(String::from);
                refused(&words, &[], &told);
            }
            let kept = options("code", settings, &["--state", &state]);
            refused(&kept, &[], &told);
        }
    }
    // as numbers are written elsewhere
    ok(&options("code", ["01", "QPSK", "1/2", "013"], &[]), &[]);
}

/// A number that is too large is refused like any other, and what is no number is not understood.
#[test]
fn numbers_of_packets_and_frames() {
    let folder = folder("statuses-numbers");
    let stream = packets(&mut Random::new(101), 12);
    let state = path(&folder, "state");
    let carriers = ok(&options("code", SETTINGS, &["--state", &state]), &stream);
    fs::write(folder.join("carriers"), carriers).unwrap();
    fs::write(folder.join("old"), &stream[..PACKET]).unwrap();
    let replace = "$W replace --state state -i carriers --old old --new old";
    for number in [
        "12",
        "4294967296",
        "18446744073709551615",
        "18446744073709551616",
        "99999999999999999999999",
    ] {
        let packet = format!("{replace} --packet {number}");
        script_refused(&folder, &packet, &["packet ", number, "refusal 9"]);
        let frame = format!("{replace} --packet 0 --frame {number}");
        script_refused(&folder, &frame, &["frame ", number, "refusal 9"]);
    }
    for number in ["x", "-1", "1.0", "+1", "0x1"] {
        for text in [
            format!("{replace} --packet {number}"),
            format!("{replace} --packet 0 --frame {number}"),
        ] {
            let (status, _, said) = script(&folder, &text);
            assert_eq!((status, said.lines().count()), (2, 1), "{text}: {said}");
        }
    }
}

/// The words don't make a call.
#[test]
fn what_is_no_call() {
    for words in [
        &["--slots", "--leave-out-lost"][..],
        &["--slots", "--keep-padding"],
        &["--leave-out-lost", "--keep-padding", "--slots"],
    ] {
        let words = options("back", SETTINGS, words);
        usage(&words.iter().map(String::as_str).collect::<Vec<_>>());
    }
    // a form that can't be comes before a setting that is not legal
    usage(&[
        "code",
        "--mode",
        "1",
        "--layer",
        "A=8psk,2/3,1",
        "--layer",
        "B",
    ]);
    usage(&[
        "code",
        "--mode",
        "1",
        "--layer",
        "A=8psk,2/3,1",
        "--rate",
        "1/2",
    ]);
    for name in ["-i", "-o", "--state", "--mode"] {
        usage(&["code", name, ""]);
    }
    usage(&[&["code", "-i", "A="][..], &TWO].concat());
    // what is missing comes before any file
    let replace = [
        "replace",
        "--state",
        "/nowhere/at/all",
        "--packet",
        "0",
        "--old",
        "a",
    ];
    for count in [1, 3, 5, 7] {
        usage(&replace[..count]);
    }
    usage(&["help", "transmit"]);
    usage(&["help", "code", "back"]);
}

#[test]
fn help_of_a_subcommand() {
    let said = |words: &[&str]| {
        ok(
            &words
                .iter()
                .map(|word| word.to_string())
                .collect::<Vec<_>>(),
            &[],
        )
    };
    for name in ["code", "back", "replace", "frames", "demo"] {
        assert_eq!(said(&["help", name]), said(&[name, "--help"]));
    }
    assert_eq!(said(&["help"]), said(&["--help"]));
}

/// One line, whatever a file is called.
#[test]
fn what_is_wrong_is_one_line() {
    let folder = folder("statuses-line");
    for name in ["a\nb", "a\x1b[2Kb", "a\rb", "a\tb", "a\u{85}b"] {
        for option in ["-i", "--state"] {
            let nowhere = path(&folder, &format!("{name}/c"));
            let (status, _, said) = run(&options("code", SETTINGS, &[option, &nowhere]), &[]);
            assert_eq!(status, 1);
            let line = said.strip_suffix('\n').unwrap();
            assert!(!line.contains(char::is_control), "{line:?}");
        }
    }
    let nowhere = path(&folder, "a\nb\x1b");
    refused(
        &options("code", SETTINGS, &["-i", &nowhere]),
        &[],
        &["a\\nb\\x1b"],
    );
    let (status, _, said) = run(&["no\nsuch".to_string()], &[]);
    assert_eq!((status, said.lines().count()), (2, 1), "{said}");
}

/// Standard output or input that was closed from the beginning is not written or read as if it were there.
#[test]
fn closed_standard_streams_are_refused() {
    let folder = folder("statuses-closed");
    fs::write(folder.join("stream"), packets(&mut Random::new(102), 12)).unwrap();
    for words in [
        "--help",
        "--version",
        "help code",
        "code --help",
        "frames",
        "frames --mode 1 --layer A=qpsk,1/2,1",
        "demo",
        "code $S -i stream",
        "code $S -i stream -o -",
        "code $S -i stream -o /dev/stdout",
        "code $S -i stream --state state",
    ] {
        script_refused(
            &folder,
            &format!("$W {words} >&-"),
            &["standard output is closed"],
        );
    }
    for words in [
        "code $S",
        "back $S",
        "code $S -i -",
        "code $S -i /dev/stdin",
    ] {
        script_refused(
            &folder,
            &format!("$W {words} <&-"),
            &["standard input is closed"],
        );
    }
    // where nothing goes there nothing is missed
    let both = "$W code $S -i stream -o out <&- >&-";
    assert_eq!(script(&folder, both).0, 0);
    assert!(!folder.join("state").exists());
}

/// Counts have the form that goes with them.
#[test]
fn one_is_not_said_as_many() {
    let folder = folder("statuses-counts");
    let stream = packets(&mut Random::new(103), 13);
    let said = |words: &[String], input: &[u8]| run(words, input).2;
    let line = said(
        &options("code", SETTINGS, &["--exact"]),
        &stream[..12 * PACKET],
    );
    assert!(
        line.contains("12 packets and 0 of padding in 1 frame of "),
        "{line}"
    );
    let line = said(&options("code", SETTINGS, &[]), &stream[..PACKET]);
    assert!(
        line.contains("1 packet and 23 of padding in 2 frames of "),
        "{line}"
    );
    let line = said(&options("code", SETTINGS, &["--exact"]), &stream);
    assert!(line.contains("has 1 packet and not 12"), "{line}");
    let line = said(&options("back", SETTINGS, &[]), &[0]);
    assert!(line.contains("has 1 carrier and not 19584"), "{line}");
    let carriers = ok(
        &options("code", SETTINGS, &["--exact"]),
        &stream[..12 * PACKET],
    );
    let line = said(&options("back", SETTINGS, &[]), &carriers);
    assert!(line.contains("0 packets from 1 frame, "), "{line}");
    let state = path(&folder, "state");
    fs::write(&state, "x").unwrap();
    let line = said(&options("code", SETTINGS, &["--state", &state]), &[]);
    assert!(
        line.contains(&format!(
            "has 1 byte, and a coding record has {CODING_RECORD}"
        )),
        "{line}"
    );
}

/// `--quiet` says nothing on a terminal either, however long the run takes.
#[test]
fn quiet_on_a_terminal() {
    let folder = folder("statuses-quiet");
    fs::write(folder.join("stream"), packets(&mut Random::new(104), 12)).unwrap();
    let run = "{ cat stream; sleep 0.7; cat stream; } | $W code $S --exact --quiet >out";
    let text = format!("export W S; script -qec '{run}' /dev/null");
    let (status, shown, said) = script(&folder, &text);
    assert_eq!(
        (status, shown.len(), said.len()),
        (0, 0, 0),
        "{}",
        String::from_utf8_lossy(&shown)
    );
    assert_eq!(fs::read(folder.join("out")).unwrap().len(), 2 * 19584);
}
