//! Signals: what a run that they end leaves, and says.

use std::fs;
use std::path::Path;

use crate::common::packets;
use crate::live::{names, script, wait_until, Live};
use crate::running::{folder, ok, options, path};
use second::random::Random;
use warintaya::{Coder, Layer, LayerName, PACKET};

/// A layer whose frames, both of packets and of carriers, are far larger than a pipe.
const LARGE: [&str; 4] = ["2", "64qam", "7/8", "13"];
const SMALL: [&str; 4] = ["1", "qpsk", "1/2", "1"];

const SIGNALS: [(&str, i32); 3] = [("INT", 130), ("TERM", 143), ("HUP", 129)];

/// What a pipe holds.
const PIPE: usize = 65536;

fn large() -> Layer {
    Layer::new(2, 6, 5, 13).unwrap()
}

/// So many frames of the large layer, and their carriers.
fn frames(seed: u64, count: usize) -> (Vec<u8>, Vec<u8>) {
    let stream = packets(&mut Random::new(seed), count * large().packets());
    let carriers = ok(&options("code", LARGE, &["--exact"]), &stream);
    (stream, carriers)
}

/// Without a state nothing takes its place, and nothing is left beside it; nor with one before the first frame is done.
#[test]
fn a_run_that_has_done_nothing_leaves_nothing() {
    let folder = folder("signals-nothing");
    let (out, state) = (path(&folder, "out"), path(&folder, "state"));
    let stream = packets(&mut Random::new(81), 18);
    fs::write(&out, "from before").unwrap();
    let with_state = ["-o", &out, "--state", &state];
    for (signal, status) in SIGNALS {
        for (name, length, more) in [
            ("code", stream.len(), &with_state[..2]),
            ("back", stream.len(), &with_state[..2]),
            ("code", PACKET, &with_state),
        ] {
            let mut live = Live::start(&options(name, SMALL, more));
            let beside = folder.join(format!(".out.{}", live.process()));
            wait_until("the output is made", || beside.exists());
            live.give(&stream[..length]);
            live.signal(signal);
            let (ended, said) = live.ended();
            let begin = format!("warintaya {name}: ended by SIG{signal}");
            assert_eq!((ended, said.lines().count()), (Some(status), 1));
            assert!(said.starts_with(&begin), "{said}");
            assert_eq!(said == begin + "\n", more.len() == 2, "{said}");
            assert_eq!(names(&folder), ["out"]);
            assert_eq!(fs::read(&out).unwrap(), b"from before");
        }
    }
}

/// A signal that was ignored from the beginning stays ignored.
#[test]
fn ignored_signals_stay_ignored() {
    let folder = folder("signals-ignored");
    let stream = packets(&mut Random::new(82), 12);
    let text = "trap '' HUP INT; exec $W code $S --exact -o out";
    let mut live = Live::start_in_shell(&folder, text);
    let beside = folder.join(format!(".out.{}", live.process()));
    wait_until("the output is made", || beside.exists());
    live.signal("HUP");
    live.signal("INT");
    live.give(&stream);
    live.close();
    assert_eq!(live.end().0, Some(0));
    let carriers = ok(&options("code", SMALL, &["--exact"]), &stream);
    assert!(fs::read(folder.join("out")).unwrap() == carriers);
}

/// An alarm that was set before the command began ends it, as it ends others.
#[test]
fn alarms_end_it_as_ever() {
    let folder = folder("signals-alarm");
    let mut live = Live::start(&options("code", SMALL, &["-o", &path(&folder, "out")]));
    let beside = folder.join(format!(".out.{}", live.process()));
    wait_until("the output is made", || beside.exists());
    live.signal("ALRM");
    assert_eq!(live.ended(), (None, String::new()));
}

/// A run says that it was ended behind two frames, and how many bytes of a frame it read and did not take: all of a half, but for
/// what a pipe holds.
fn says_where_it_ended(said: &str, name: &str, signal: &str, half: usize) {
    let line = said.lines().last().unwrap();
    let begin = format!("warintaya {name}: ended by SIG{signal} behind 2 frames, with ");
    let end = " bytes of the next read from standard input and not taken; the state is kept";
    let count = line
        .strip_prefix(&begin)
        .and_then(|rest| rest.strip_suffix(end));
    let count: usize = count.expect(said).parse().unwrap();
    assert!(half - PIPE <= count && count <= half, "{said}");
}

/// Gives two frames and a half, a signal, and in another run the rest from the third frame on: it is as one run, with the output
/// in a file and on standard output.
fn goes_on(folder: &Path, name: &str, input: &[u8], whole: &[u8], signal: (&str, i32), file: bool) {
    let (state, out) = (path(folder, "state"), path(folder, "out"));
    let mut words = options(name, LARGE, &["--state", &state]);
    if file {
        words.extend(["-o".to_string(), out.clone()]);
    }
    let frame = input.len() / 4;
    let mut live = Live::start(&words);
    let reading = live.collect();
    live.give(&input[..2 * frame + frame / 2]);
    live.signal(signal.0);
    let (status, said) = live.ended();
    let written = reading.join().unwrap();
    assert_eq!(status, Some(signal.1), "{said}");
    says_where_it_ended(&said, name, signal.0, frame / 2);
    let run = |input: &[u8]| match file {
        true => {
            let before = fs::read(&out).unwrap();
            ok(&words, input);
            [before, fs::read(&out).unwrap()].concat()
        }
        false => [&written[..], &ok(&words, input)].concat(),
    };
    assert!(run(&input[2 * frame..]) == whole, "{name}, {signal:?}");
    let there: &[&str] = if file { &["out", "state"] } else { &["state"] };
    assert_eq!(names(folder), there);
    for name in there {
        fs::remove_file(folder.join(name)).unwrap();
    }
}

/// With a state the run ends behind a whole frame, and a later one goes on from there.
#[test]
fn a_run_with_a_state_ends_behind_a_frame() {
    let folder = folder("signals-state");
    let (stream, carriers) = frames(83, 4);
    let back = ok(&options("back", LARGE, &[]), &carriers);
    for (signal, file) in SIGNALS.into_iter().zip([true, false, true]) {
        goes_on(&folder, "code", &stream, &carriers, signal, file);
    }
    goes_on(&folder, "back", &carriers, &back, SIGNALS[0], true);
    goes_on(&folder, "back", &carriers, &back, SIGNALS[1], false);
}

/// A frame that is being written is written to its end, however slowly it is read.
#[test]
fn a_frame_is_written_to_its_end() {
    let folder = folder("signals-frame");
    let (stream, carriers) = frames(84, 1);
    let mut live = Live::start(&options(
        "code",
        LARGE,
        &["--state", &path(&folder, "state")],
    ));
    live.give(&stream);
    // the first byte is there, and the last can't be
    let first = live.read(1);
    live.signal("INT");
    let (status, rest, said) = live.end();
    assert_eq!(status, Some(130));
    assert!(
        said.ends_with("code: ended by SIGINT behind 1 frame; the state is kept\n"),
        "{said}"
    );
    assert!([first, rest].concat() == carriers);
    let mut coder = Coder::new(large());
    coder
        .code(LayerName::A, &stream, &mut vec![0; carriers.len()])
        .unwrap();
    assert!(fs::read(folder.join("state")).unwrap() == coder.record());
    assert_eq!(names(&folder), ["state"]);
}

/// A second signal ends a run within a frame, and so does the first one where there is no state.
#[test]
fn a_run_that_nobody_reads_is_ended() {
    let folder = folder("signals-twice");
    let stream = packets(&mut Random::new(85), large().packets());
    let state = path(&folder, "state");
    for (more, signals) in [
        (&["--state", &state][..], &["INT", "TERM"][..]),
        (&[], &["INT"]),
    ] {
        let mut live = Live::start(&options("code", LARGE, more));
        live.give(&stream);
        live.read(1);
        signals.iter().for_each(|signal| live.signal(signal));
        let (status, said) = live.ended();
        // two that come at the same time are taken in either order
        let name = if status == Some(143) { "TERM" } else { "INT" };
        assert!(status == Some(130) || status == Some(143) && signals.len() == 2);
        assert_eq!(said, format!("warintaya code: ended by SIG{name}\n"));
        assert_eq!(names(&folder).len(), 0);
    }
}

/// A run that waits for the other end of a pipe, or for a packet to put in, is ended too.
#[test]
fn a_run_that_waits_for_a_pipe_is_ended() {
    let folder = folder("signals-pipe");
    assert_eq!(
        script(&folder, "mkfifo pipe; $W code $S --state state </dev/null").0,
        0
    );
    for words in [
        "code --state state -i pipe",
        "code --state state -o pipe",
        "replace --state state --packet 0 --old pipe --new pipe",
    ] {
        let mut live = Live::start_in_shell(&folder, &format!("exec $W {words}"));
        let lock = folder.join(".state.lock");
        wait_until("the state is locked", || lock.exists());
        if words.starts_with("replace") {
            live.give(&[0; 19584]);
            live.close();
        }
        live.signal("TERM");
        let (status, said) = live.ended();
        assert_eq!(
            (status, said.contains("ended by SIGTERM")),
            (Some(143), true),
            "{words}: {said}"
        );
        assert_eq!(names(&folder), ["pipe", "state"]);
    }
}

/// A replacement is whole or not at all: a signal leaves the state and the file.
#[test]
fn a_replacement_is_not_done_by_half() {
    let folder = folder("signals-replace");
    let (stream, carriers) = frames(86, 2);
    let state = path(&folder, "state");
    ok(&options("code", LARGE, &["--state", &state]), &stream);
    let kept = fs::read(&state).unwrap();
    fs::write(
        folder.join("old"),
        &stream[large().packets() * PACKET..][..PACKET],
    )
    .unwrap();
    fs::write(folder.join("out"), "from before").unwrap();
    let text = "exec $W replace --state state --packet 0 --old old --new old -o out";
    let mut live = Live::start_in_shell(&folder, text);
    live.give(&carriers[..carriers.len() - 1]);
    live.signal("INT");
    assert_eq!(
        live.ended(),
        (
            Some(130),
            "warintaya replace: ended by SIGINT\n".to_string()
        )
    );
    assert!(fs::read(&state).unwrap() == kept);
    assert_eq!(fs::read(folder.join("out")).unwrap(), b"from before");
    assert_eq!(names(&folder), ["old", "out", "state"]);
}
