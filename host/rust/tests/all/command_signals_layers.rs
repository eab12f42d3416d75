//! Signals to a run of several layers.

use std::fs;
use std::path::Path;

use crate::common::packets;
use crate::layers::{two, words, TWO};
use crate::live::{names, wait_until, Live};
use crate::running::{folder, ok, path};
use second::random::Random;
use warintaya::LayerName;

/// The carriers of one of two layers.
fn whole(letter: &str, stream: &[u8]) -> Vec<u8> {
    let file = format!("{letter}=-");
    ok(&words("code", &TWO, &["--exact", "-i", &file]), stream)
}

/// The same behind so many of three frames, from the state that was kept.
fn rest_of(folder: &Path, letter: &str, stream: &[u8], done: usize) -> Vec<u8> {
    let (state, file) = (path(folder, "state"), format!("{letter}=-"));
    let rest = &stream[done * stream.len() / 3..];
    ok(&words("code", &[], &["--state", &state, "-i", &file]), rest)
}

/// Of two layers each is left behind its own last frame, and all outputs take their places.
#[test]
fn layers_are_left_behind_their_frames() {
    let folder = folder("signals-layers");
    let [a, b] = [16, 108].map(|count| packets(&mut Random::new(87), 3 * count));
    fs::write(folder.join("A.ts"), &a).unwrap();
    let code = "--state state -i A=A.ts -o A=A.out -i B=- -o B=B.out";
    let text = format!("exec $W code {} {code}", TWO.join(" "));
    let mut live = Live::start_in_shell(&folder, &text);
    let process = live.process();
    let written = |name: &str, layer: LayerName| {
        let beside = folder.join(format!(".{name}.{process}"));
        let length = fs::metadata(beside).map_or(0, |about| about.len());
        length as usize / two().layer(layer).unwrap().carriers()
    };
    let frame = b.len() / 3;
    live.give(&b[..frame + 1]);
    // the second frame of B lacks all but its first byte
    wait_until("the frames before are coded", || {
        written("A.out", LayerName::A) == 2 && written("B.out", LayerName::B) == 1
    });
    live.signal("TERM");
    let (status, said) = live.ended();
    assert_eq!(status, Some(143));
    let line = said.lines().last().unwrap();
    let told = "code: ended by SIGTERM, layer A behind 2 frames, layer B behind 1 frame";
    assert!(
        line.contains(told) && line.ends_with("; the state is kept"),
        "{said}"
    );
    assert_eq!(names(&folder), ["A.out", "A.ts", "B.out", "state"]);
    for (letter, stream, done) in [("A", &a, 2), ("B", &b, 1)] {
        let out = fs::read(folder.join(format!("{letter}.out"))).unwrap();
        assert!([out, rest_of(&folder, letter, stream, done)].concat() == whole(letter, stream));
    }
}
