//! The command with several layers: what is refused of them, and what can't be understood.

use std::fs;

use crate::layers::{files, read, streams, two, words, TWO};
use crate::running::{folder, ok, path, refused, usage};
use warintaya::{Coder, Station, PACKET, UNUSED};

/// What is wrong in one layer is told with its name, and leaves the files of all and the record as they were.
#[test]
fn what_is_wrong_leaves_all_layers() {
    let folder = folder("layers-wrong");
    let sent = streams(&folder, &[("A", 32), ("B", 2 * 108)], 56);
    let names = ["A.carriers", "B.carriers", "state"];
    let settings = words("code", &TWO, &["--state", &path(&folder, "state")]);
    let code = [
        settings.clone(),
        files(&folder, &["A", "B"], "ts", "carriers"),
    ]
    .concat();
    ok(&code, &[]);
    let before = names.map(|name| read(&folder, name));
    let mut headless = sent[1].clone();
    headless[150 * PACKET] = 0x46;
    fs::write(folder.join("B.ts"), &headless).unwrap();
    let told = ["code: layer B: packet 150 ", "byte 28200 of ", "refusal 8"];
    refused(&code, &[], &told);
    fs::write(folder.join("B.ts"), &sent[1][PACKET..]).unwrap();
    let told = ["layer B: frame 1", "107 packets and not 108", "refusal 5"];
    refused(&code, &[], &told);
    fs::remove_file(folder.join("B.ts")).unwrap();
    refused(&code, &[], &["B.ts can't be read"]);
    // one layer's place can't be written
    fs::write(folder.join("B.ts"), &sent[1]).unwrap();
    let mut nowhere = [settings, files(&folder, &["A", "B"], "ts", "carriers")].concat();
    let last = nowhere.pop();
    assert!(last.map_or(false, |word| word.ends_with("B.carriers")));
    nowhere.push("B=/nowhere/at/all".to_string());
    refused(&nowhere, &[], &["/nowhere/at/all can't be written"]);
    assert!(names.map(|name| read(&folder, name)) == before);
    assert_eq!(fs::read_dir(&folder).unwrap().count(), 5);
}

/// The same going back.
#[test]
fn wrong_carriers_leave_all_layers() {
    let folder = folder("layers-wrong-carriers");
    let back = [
        words("back", &TWO, &["--state", &path(&folder, "state")]),
        files(&folder, &["A", "B"], "carriers", "back"),
    ]
    .concat();
    let frames = two().used().map(|(_, layer)| vec![0; layer.carriers()]);
    let [a, b] = <[Vec<u8>; 2]>::try_from(frames.collect::<Vec<_>>()).unwrap();
    fs::write(folder.join("A.carriers"), &a).unwrap();
    let mut large = b.clone();
    large[5] = 64;
    fs::write(folder.join("B.carriers"), &large).unwrap();
    let told = [
        "back: layer B: carrier 5 of frame 0",
        "byte 5",
        "refusal 10",
    ];
    refused(&back, &[], &told);
    fs::write(folder.join("B.carriers"), &b[1..]).unwrap();
    refused(&back, &[], &["back: layer B: frame 0", "refusal 6"]);
    assert_eq!(fs::read_dir(&folder).unwrap().count(), 2);
    fs::write(folder.join("B.carriers"), &b).unwrap();
    ok(&back, &[]);
    assert_eq!(fs::read_dir(&folder).unwrap().count(), 5);
}

/// Stations that can't be started.
#[test]
fn stations_are_refused() {
    let cases = [
        ("4", "A=qpsk,1/2,14", "B=qpsk,1/2,1", "refusal 1"),
        (
            "1",
            "A=qpsk,1/2,14",
            "B=qpsk,1/2,0",
            "--layer A: the number of segments",
        ),
        (
            "1",
            "B=qpsk,1/2,13",
            "C=qpsk,1/2,0",
            "--layer C: the number of segments",
        ),
        ("1", "A=qpsk,1/2,13", "C=qpsk,1/2,1", "14 segments in all"),
        ("1", "A=qpsk,1/2,13", "C=qpsk,1/2,1", "refusal 12"),
    ];
    for name in ["code", "back", "frames"] {
        for (mode, one, other, told) in cases {
            let settings = ["--mode", mode, "--layer", one, "--layer", other];
            refused(&words(name, &settings, &[]), &[], &[told]);
        }
    }
}

/// Layers that are not used.
#[test]
fn unused_layers_are_refused() {
    let unused = words("code", &TWO, &["-i", "C=c.ts", "-o", "C=c.carriers"]);
    refused(&unused, &[], &["layer C is not used", "refusal 13"]);
    let alone = ["--mode", "1", "--layer", "B=qpsk,1/2,1"];
    let unused = words("back", &alone, &["-o", "A=a"]);
    refused(&unused, &[], &["layer A is not used", "refusal 13"]);
    let state = path(&folder("layers-unused"), "state");
    let empty = Station::new(1, [UNUSED; 3]).unwrap();
    fs::write(&state, Coder::new(empty).record()).unwrap();
    let unused = words("code", &[], &["--state", &state]);
    refused(&unused, &[], &["no layer is used", "refusal 13"]);
}

/// What is given of the settings has to agree with the record.
#[test]
fn records_of_other_stations_are_refused() {
    let state = path(&folder("layers-other"), "state");
    fs::write(&state, Coder::new(two()).record()).unwrap();
    for other in [
        &["--mode", "2"][..],
        &["--mode", "1", "--layer", "A=qpsk,2/3,2"],
        &["--mode", "1", "--layer", "C=qpsk,2/3,1"],
        // this is layer A alone
        &["--modulation", "qpsk"],
    ] {
        let shown = "mode 1; A: QPSK, rate 2/3, 1 segment; B: 64QAM, rate 3/4, 2 segments";
        let words = words("code", other, &["--state", &state, "-i", "A=-"]);
        refused(&words, &[], &[shown, "other settings"]);
    }
    for same in [&["--mode", "1"][..], &["--layer", "B=64qam,3/4,2"], &TWO] {
        ok(&words("code", same, &["--state", &state, "-i", "A=-"]), &[]);
    }
}

/// `code` and `back` were not called as they can be.
fn wrong(settings: &[&str], more: &[&str]) {
    for name in ["code", "back"] {
        usage(&[&[name], settings, more].concat());
    }
}

/// Settings that can't be understood.
#[test]
fn wrong_settings_are_told() {
    for layer in [
        "A",
        "A=",
        "A=qpsk,2/3",
        "A=qpsk,2/3,1,1",
        "a=qpsk,2/3,1",
        "D=qpsk,2/3,1",
        "AB=qpsk,2/3,1",
        "qpsk,2/3,1",
    ] {
        wrong(&["--mode", "1", "--layer", layer], &[]);
        usage(&["frames", "--mode", "1", "--layer", layer]);
    }
    wrong(&["--layer", "A=qpsk,2/3,1"], &[]);
    usage(&["frames", "--layer", "A=qpsk,2/3,1"]);
    wrong(&TWO, &["--layer", "A=qpsk,2/3,1"]);
    let alone = [
        ("--modulation", "qpsk"),
        ("--rate", "2/3"),
        ("--segments", "1"),
    ];
    for (option, value) in alone {
        wrong(&TWO, &[option, value]);
        usage(&[&["frames"][..], &TWO, &[option, value]].concat());
    }
}

/// Files that name no layer, or not both sides of each, or one twice.
#[test]
fn wrong_files_are_told() {
    for files in [
        &[][..],
        &["-i", "in"],
        &["-i", "A=in", "-o", "out"],
        &["-i", "A=in", "-o", "A=out", "-i", "B=in"],
        &["-i", "A=in", "-o", "B=out"],
        &["-i", "A=in", "-i", "A=in", "-o", "A=out"],
        &["-i", "A=-", "-i", "B=-", "-o", "A=a", "-o", "B=b"],
        &["-i", "A=a", "-i", "B=b", "-o", "A=-", "-o", "B=b"],
    ] {
        wrong(&TWO, files);
    }
    let alone = ["--mode", "1", "--layer", "B=qpsk,2/3,1"];
    wrong(&alone, &["-i", "B=in", "-i", "in"]);
    wrong(&alone, &["-i", "in", "-i", "in"]);
}

/// Two things can't be written to one place.
#[test]
fn places_are_written_once() {
    let folder = folder("layers-apart");
    streams(&folder, &[("A", 16), ("B", 108)], 57);
    let [a, b, out] = ["A.ts", "B.ts", "out"].map(|name| path(&folder, name));
    let around = path(&folder, "../layers-apart/./out");
    let (a, b) = (format!("A={a}"), format!("B={b}"));
    let record = Coder::new(two()).record().to_vec();
    for existing in [false, true] {
        if existing {
            fs::write(&out, &record).unwrap();
        }
        let (one, other) = (format!("A={out}"), format!("B={around}"));
        let both = ["code", "-i", &a, "-o", &one, "-i", &b, "-o", &other];
        usage(&[&both[..], &TWO].concat());
        let state = ["code", "-i", &a, "-o", &one, "--state", &around];
        usage(&[&state[..], &TWO].concat());
    }
    assert!(fs::read(&out).unwrap() == record);
    // a device takes what comes
    let both = ["-i", &a, "-o", "A=/dev/null", "-i", &b, "-o", "B=/dev/null"];
    ok(&words("code", &TWO, &both), &[]);
}
