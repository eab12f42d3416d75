//! The state that a failed run leaves, which fits what went out, and states that are kept while a run goes on.

use std::fs;
use std::path::Path;

use crate::common::packets;
use crate::layers::{two, words, TWO};
use crate::live::{names, script, Live};
use crate::running::{folder, ok, options, path, run, usage};
use second::random::Random;
use warintaya::{Coder, Layer, LayerName, Station, PACKET};

/// A small layer, and one whose frames are far larger than a pipe.
const SMALL: [&str; 4] = ["1", "qpsk", "1/2", "1"];
const LARGE: [&str; 4] = ["2", "64qam", "7/8", "13"];
const COUNT: usize = 12;

/// The record of a station's coder behind some frames.
fn record(station: Station, frames: &[(LayerName, &[u8])]) -> Vec<u8> {
    let mut coder = Coder::new(station);
    for (name, stream) in frames {
        let layer = station.layer(*name).unwrap();
        for frame in stream.chunks(layer.packets() * PACKET) {
            let mut carriers = vec![0; layer.carriers()];
            coder.code(*name, frame, &mut carriers).unwrap();
        }
    }
    coder.record().to_vec()
}

/// A run that fails in its third frame, with these words about the state at the end of its line; what it wrote.
fn fails(words: &[String], input: &[u8], what: &str, end: &str) -> Vec<u8> {
    let (status, written, said) = run(words, input);
    assert_eq!((status, said.lines().count()), (1, 1), "{said}");
    assert!(
        said.contains(what) && said.ends_with(&format!("{end}\n")),
        "{said}"
    );
    written
}

/// What a run wrote until it failed, and what the next one writes from the bad frame on, are the coding of the whole stream.
#[test]
fn a_coding_state_fits_what_went_out() {
    let folder = folder("left-coding");
    let stream = packets(&mut Random::new(91), 5 * COUNT);
    let whole = ok(&options("code", SMALL, &["--exact"]), &stream);
    let code = options("code", SMALL, &["--state", &path(&folder, "state")]);
    let mut bad = stream.clone();
    bad[(2 * COUNT + 5) * PACKET] = 0;
    let end = "; the state is kept behind frame 1";
    let written = fails(&code, &bad, "packet 29", end);
    let next = ok(&code, &stream[2 * COUNT * PACKET..]);
    assert!([written, next].concat() == whole);
    assert_eq!(names(&folder), ["state"]);
}

/// The same going back.
#[test]
fn a_receiving_state_fits_what_went_out() {
    let folder = folder("left-receiving");
    let stream = packets(&mut Random::new(91), 5 * COUNT);
    let carriers = ok(&options("code", SMALL, &["--exact"]), &stream);
    let whole = ok(&options("back", SMALL, &[]), &carriers);
    let back = options("back", SMALL, &["--state", &path(&folder, "state")]);
    let frame = carriers.len() / 5;
    let mut bad = carriers.clone();
    bad[2 * frame + 7] = 4;
    let end = "; the state is kept behind frame 1";
    let written = fails(&back, &bad, "carrier 7 of frame 2", end);
    let next = ok(&back, &carriers[2 * frame..]);
    assert!([written, next].concat() == whole);
    assert_eq!(names(&folder), ["state"]);
}

/// A stream that ends within a frame, runs that fail before a frame went out, and a device that takes nothing.
#[test]
fn a_state_stays_where_nothing_went_out() {
    let folder = folder("left-nothing");
    let stream = packets(&mut Random::new(96), COUNT + 1);
    let state = path(&folder, "state");
    let code = options("code", SMALL, &["--state", &state]);
    let end = "--fill pads it (refusal 5); the state is kept behind frame 0";
    let written = fails(&code, &stream, "frame 1", end);
    assert_eq!(written.len(), small().carriers());
    let kept = fs::read(&state).unwrap();
    let frame = &stream[..COUNT * PACKET];
    assert!(kept == record(small().into(), &[(LayerName::A, frame)]));
    fails(&code, &stream[1..], "packet 0", "(refusal 8)");
    let full = options("code", SMALL, &["--state", &state, "-o", "/dev/full"]);
    fails(&full, frame, "/dev/full can't be written", "(os error 28)");
    assert!(fs::read(&state).unwrap() == kept);
    assert_eq!(names(&folder), ["state"]);
}

fn small() -> Layer {
    Layer::new(1, 2, 1, 1).unwrap()
}

/// A file doesn't take its place where a run fails, and so the state stays.
#[test]
fn a_state_stays_where_the_output_is_a_file() {
    let folder = folder("left-file");
    let stream = packets(&mut Random::new(92), 3 * COUNT);
    let (state, out) = (path(&folder, "state"), path(&folder, "out"));
    let code = options("code", SMALL, &["--state", &state, "-o", &out]);
    ok(&code, &stream);
    let before = [fs::read(&state).unwrap(), fs::read(&out).unwrap()];
    let mut bad = stream.clone();
    bad[2 * COUNT * PACKET] = 0;
    fails(&code, &bad, "packet 24", "(refusal 8)");
    assert!([fs::read(&state).unwrap(), fs::read(&out).unwrap()] == before);
}

/// Of two layers, one in a pipe and one in a file, each has what fits.
#[test]
fn each_layer_has_what_fits() {
    let folder = folder("left-layers");
    let mut random = Random::new(93);
    let [a, b] = [16, 108].map(|count| packets(&mut random, 4 * count));
    let first = &b[..108 * PACKET];
    let state = path(&folder, "state");
    let before = ok(
        &words("code", &TWO, &["--state", &state, "-i", "B=-"]),
        first,
    );
    let mut bad = b.clone();
    bad[2 * 108 * PACKET] = 0;
    fs::write(folder.join("A.ts"), &a).unwrap();
    fs::write(folder.join("B.ts"), &bad).unwrap();
    fs::write(folder.join("B.out"), &before).unwrap();
    let code = "$W code --state state -i A=A.ts -o A=pipe -i B=B.ts -o B=B.out";
    let text = format!("mkfifo pipe; cat pipe >A.out & {code}; status=$?; wait; exit $status");
    let (status, _, said) = script(&folder, &text);
    assert_eq!((status, said.lines().count()), (1, 1), "{said}");
    let end = "; the state is kept behind frame 2 of layer A\n";
    assert!(
        said.contains("layer B: packet 216") && said.ends_with(end),
        "{said}"
    );
    let three = &a[..3 * 16 * PACKET];
    let kept = record(two(), &[(LayerName::A, three), (LayerName::B, first)]);
    assert!(fs::read(&state).unwrap() == kept);
    let out = ok(&words("code", &TWO, &["--exact", "-i", "A=-"]), three);
    assert!(fs::read(folder.join("A.out")).unwrap() == out);
    assert!(fs::read(folder.join("B.out")).unwrap() == before);
}

/// A reader that goes away within a frame: that frame is not counted.
#[test]
fn a_frame_that_was_cut_is_not_counted() {
    let folder = folder("left-cut");
    let layer = Layer::new(2, 6, 5, 13).unwrap();
    let stream = packets(&mut Random::new(94), 3 * layer.packets());
    let frame = stream.len() / 3;
    let mut live = Live::start(&options(
        "code",
        LARGE,
        &["--state", &path(&folder, "state")],
    ));
    live.give(&stream[..frame]);
    live.read(layer.carriers());
    live.give(&stream[frame..2 * frame]);
    live.read(1);
    live.forget_output();
    let (status, said) = live.ended();
    assert_eq!((status, said.lines().count()), (Some(1), 1), "{said}");
    assert!(said.contains("standard output can't be written"), "{said}");
    assert!(
        said.ends_with("; the state is kept behind frame 0\n"),
        "{said}"
    );
    let kept = record(layer.into(), &[(LayerName::A, &stream[..frame])]);
    assert!(fs::read(folder.join("state")).unwrap() == kept);
    assert_eq!(names(&folder), ["state"]);
}

/// The state of a run that is killed is behind the last frames that it kept.
fn killed(folder: &Path, every: usize, frames: usize) -> Vec<u8> {
    let state = path(folder, "state");
    let _ = fs::remove_file(&state);
    let stream = packets(&mut Random::new(95), frames * COUNT);
    let number = every.to_string();
    let mut live = Live::start(&options(
        "code",
        SMALL,
        &["--state", &state, "--keep-every", &number],
    ));
    live.give(&stream);
    // the last frame is coded when what is to be kept before it is kept
    live.read(frames * small().carriers());
    live.signal("KILL");
    assert_eq!(live.ended().0, None);
    fs::read(&state).unwrap_or_default()
}

#[test]
fn states_are_kept_while_a_run_goes_on() {
    let folder = folder("left-kept");
    let stream = packets(&mut Random::new(95), 7 * COUNT);
    for (every, frames, kept) in [
        (1, 2, &[1, 2][..]),
        (2, 5, &[4]),
        (3, 7, &[6]),
        (5, 5, &[0, 5]),
        (9, 5, &[0]),
    ] {
        let state = killed(&folder, every, frames);
        let fits = |count: &usize| match count {
            0 => state.is_empty(),
            _ => {
                state
                    == record(
                        small().into(),
                        &[(LayerName::A, &stream[..count * COUNT * PACKET])],
                    )
            }
        };
        assert!(kept.iter().any(fits), "each {every} of {frames}");
    }
}

/// A run that ends by itself keeps the last frame, and going back does the same.
#[test]
fn states_are_kept_at_the_end_too() {
    let folder = folder("left-end");
    let stream = packets(&mut Random::new(95), 7 * COUNT);
    let (coding, receiving) = (path(&folder, "coding"), path(&folder, "receiving"));
    let more = ["--state", &coding, "--keep-every=2"];
    let carriers = ok(&options("code", SMALL, &more), &stream);
    let kept = record(small().into(), &[(LayerName::A, &stream)]);
    assert!(fs::read(&coding).unwrap() == kept);
    let more = [
        "--state",
        &receiving,
        "--keep-every",
        "2",
        "-o",
        "/dev/stdout",
    ];
    let back = ok(&options("back", SMALL, &more), &carriers);
    assert!(back == stream[..stream.len() - 12 * PACKET]);
    assert_eq!(names(&folder), ["coding", "receiving"]);
}

/// What `--keep-every` can't be.
#[test]
fn keeping_is_for_what_goes_out_at_once() {
    let folder = folder("left-usage");
    let (state, out) = (path(&folder, "state"), path(&folder, "out"));
    for name in ["code", "back"] {
        for more in [
            &["--keep-every", "2"][..],
            &["--keep-every", "0", "--state", &state],
            &["--keep-every", "x", "--state", &state],
            &["--keep-every", "2", "--state", &state, "-o", &out],
            &[
                "--keep-every",
                "2",
                "--state",
                &state,
                "-i",
                "A=-",
                "-o",
                &format!("A={out}"),
            ],
        ] {
            let words = options(name, SMALL, more);
            usage(&words.iter().map(String::as_str).collect::<Vec<_>>());
        }
    }
    assert_eq!(names(&folder).len(), 0);
    let large = ["--keep-every", "99999999999999999999999", "--state", &state];
    ok(&options("code", SMALL, &large), &[]);
}
