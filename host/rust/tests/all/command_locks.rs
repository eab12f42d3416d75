//! The lock of a state: one run at a time.

use std::fs;
use std::os::unix::fs::symlink;
use std::path::Path;

use crate::common::packets;
use crate::live::{names, script, script_refused, wait_until, Live};
use crate::running::{folder, ok, options, path, refused};
use second::random::Random;

const SETTINGS: [&str; 4] = ["1", "qpsk", "1/2", "1"];

/// A run that waits for its input, and holds the lock of `state`.
fn holding(folder: &Path, state: &str) -> Live {
    let words = options("code", SETTINGS, &["--state", &path(folder, state)]);
    let live = Live::start(&words);
    let lock = folder.join(".state.lock");
    let line = format!("{} warintaya code\n", live.process());
    wait_until("the state is locked", || {
        fs::read_to_string(&lock).ok().as_ref() == Some(&line)
    });
    live
}

/// Runs of each kind with a state are refused at once with these words, though their input never comes.
fn all_refused(state: &str, told: &str) {
    let replace = format!("replace --state {state} --packet 0 --old a --new b");
    for words in [
        options("code", SETTINGS, &["--state", state]),
        options("back", SETTINGS, &["--state", state]),
        replace.split(' ').map(String::from).collect(),
    ] {
        let (status, said) = Live::start(&words).ended();
        assert_eq!((status, said.lines().count()), (Some(1), 1), "{said}");
        assert!(said.contains(told), "{said}");
    }
}

/// While a run goes on, others with its state are refused, by any name of it, and are told who holds it.
#[test]
fn a_state_is_used_by_one_run_at_a_time() {
    let folder = folder("locks");
    symlink("state", folder.join("link")).unwrap();
    let stream = packets(&mut Random::new(71), 24);
    let mut carriers = Vec::new();
    for (held, tried) in [("state", "link"), ("link", "state"), ("state", "state")] {
        let mut live = holding(&folder, held);
        let there = names(&folder);
        let process = live.process();
        let told = format!("{tried} is in use by process {process} (warintaya code)");
        all_refused(&path(&folder, tried), &told);
        assert_eq!(names(&folder), there);
        live.give(&stream);
        live.close();
        let (status, written, _) = live.end();
        assert_eq!(status, Some(0));
        carriers.extend(written);
        assert_eq!(names(&folder), ["link", "state"]);
    }
    let whole = ok(&options("code", SETTINGS, &["--exact"]), &stream.repeat(3));
    assert!(carriers == whole);
}

/// Of many runs that begin at the same time some are refused, and the others go on from each other's state.
#[test]
fn no_frame_is_coded_from_a_state_twice() {
    let folder = folder("locks-many");
    let stream = packets(&mut Random::new(72), 12 * 12);
    let words = options("code", SETTINGS, &["--state", &path(&folder, "state")]);
    let mut runs: Vec<Live> = (0..12).map(|_| Live::start(&words)).collect();
    let (mut taken, mut carriers) = (Vec::new(), Vec::new());
    for (live, frame) in runs.iter_mut().zip(stream.chunks(stream.len() / 12)) {
        // one that was refused takes nothing
        live.offer(frame);
        live.close();
        let (status, written, said) = live.end();
        match status {
            Some(0) => taken.extend(frame),
            _ => assert!(
                status == Some(1) && said.contains("is in use by process "),
                "{said}"
            ),
        }
        carriers.extend(written);
    }
    assert!(!taken.is_empty());
    assert!(carriers == ok(&options("code", SETTINGS, &["--exact"]), &taken));
    assert_eq!(names(&folder), ["state"]);
}

/// A lock that a killed run has left does no harm; it is removed by the next one, also if that is refused.
#[test]
fn locks_that_are_left_do_no_harm() {
    let folder = folder("locks-left");
    let stream = packets(&mut Random::new(73), 12);
    let words = options("code", SETTINGS, &["--state", &path(&folder, "state")]);
    for left in [
        "",
        "1 warintaya code\n",
        "999999999 warintaya code and more\n",
        "\u{fffd}",
    ] {
        fs::write(folder.join(".state.lock"), left).unwrap();
        ok(&words, &stream);
        assert_eq!(names(&folder), ["state"]);
    }
    let live = holding(&folder, "state");
    live.signal("KILL");
    drop(live);
    assert_eq!(names(&folder), [".state.lock", "state"]);
    refused(&words, &stream[1..], &["refusal 8"]);
    assert_eq!(names(&folder), ["state"]);
}

/// What stands in the lock's place and is no lock is refused, and left.
#[test]
fn what_is_no_lock_is_left() {
    let folder = folder("locks-no-lock");
    fs::write(folder.join("victim"), "of value").unwrap();
    for there in [
        "ln -s victim .state.lock",
        "ln -s nothing .state.lock",
        "mkdir .state.lock",
        "mkfifo .state.lock",
    ] {
        assert_eq!(script(&folder, there).0, 0);
        let text = "timeout 60 $W code $S --state state";
        script_refused(
            &folder,
            text,
            &["state can't be written: its lock ", "is no file"],
        );
        assert_eq!(names(&folder), [".state.lock", "victim"]);
        assert_eq!(fs::read(folder.join("victim")).unwrap(), b"of value");
        assert_eq!(script(&folder, "rm -r .state.lock").0, 0);
    }
}

/// A state that can't be kept is refused before anything is read: the input never ends.
#[test]
fn places_where_no_state_can_be_kept() {
    for state in ["/nowhere/at/all", "/proc/state", "/dev/null"] {
        for name in ["code", "back"] {
            let mut live = Live::start(&options(name, SETTINGS, &["--state", state]));
            let (status, said) = live.ended();
            assert_eq!((status, said.lines().count()), (Some(1), 1), "{said}");
            assert!(said.contains(&format!("{state} can't be ")), "{said}");
        }
    }
}
