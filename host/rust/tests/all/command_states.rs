//! Records that the command keeps between runs, and states of one layer as they were kept before.

use std::fs;
use std::path::Path;

use crate::common::packets;
use crate::running::{folder, ok, options, path, refused};
use second::random::Random;
use warintaya::{CODING_RECORD, CODING_STATE, PACKET, RECEIVING_RECORD, RECEIVING_STATE};

const SETTINGS: [[&str; 4]; 2] = [["1", "qpsk", "1/2", "1"], ["1", "16qam", "3/4", "3"]];

/// The packets of a frame of the second.
const COUNT: usize = 108;

/// A stream in three runs with its state kept gives what one run gives, and so do its carriers.
#[test]
fn states_are_kept_between_runs() {
    let folder = folder("states");
    let (coding, receiving) = (path(&folder, "coding"), path(&folder, "receiving"));
    let frame = PACKET * COUNT;
    let stream = packets(&mut Random::new(34), 4 * COUNT);
    let whole = ok(&options("code", SETTINGS[1], &["--exact"]), &stream);
    let whole_back = ok(&options("back", SETTINGS[1], &[]), &whole);
    let (mut parts, mut parts_back) = (Vec::new(), Vec::new());
    for part in [
        &stream[..frame],
        &stream[frame..3 * frame],
        &stream[3 * frame..],
    ] {
        let carriers = ok(&options("code", SETTINGS[1], &["--state", &coding]), part);
        let back = options("back", SETTINGS[1], &["--state", &receiving]);
        parts_back.extend(ok(&back, &carriers));
        parts.extend(carriers);
    }
    assert!(parts == whole && parts_back == whole_back);
    assert_eq!(fs::read(&coding).unwrap().len(), CODING_RECORD);
    assert_eq!(fs::read(&receiving).unwrap().len(), RECEIVING_RECORD);
    // the record has the settings, so that they need not be given; the end of the stream is filled and comes out
    let fill = ["code", "--state", &coding, "--fill"].map(String::from);
    let end = ok(&fill, &stream[..PACKET]);
    let rest = ok(&["back", "--state", &receiving].map(String::from), &end);
    let last = &stream[stream.len() - 12 * PACKET..];
    assert!(rest == [last, &stream[..PACKET]].concat());
}

/// A run that is refused leaves the state, and a state that isn't good, or another layer's, is refused.
#[test]
fn states_are_refused() {
    let folder = folder("states-refused");
    let (coding, receiving) = (path(&folder, "coding"), path(&folder, "receiving"));
    let stream = packets(&mut Random::new(38), COUNT);
    let code = |state: &str| options("code", SETTINGS[1], &["--state", state]);
    let back = |state: &str| options("back", SETTINGS[1], &["--state", state]);
    let carriers = ok(&code(&coding), &stream);
    ok(&back(&receiving), &carriers);
    let kept = [fs::read(&coding).unwrap(), fs::read(&receiving).unwrap()];
    refused(&code(&coding), &stream[..PACKET], &["refusal 5", "--fill"]);
    refused(&back(&receiving), &carriers[1..], &["refusal 6"]);
    let other = options("code", SETTINGS[0], &["--state", &coding]);
    refused(&other, &[], &["mode 1, 16QAM, rate 3/4, 3 segments"]);
    let lengths = [RECEIVING_RECORD, CODING_RECORD].map(|length| length.to_string());
    let told = [lengths[0].as_str(), &lengths[1], "refusal 7"];
    refused(&code(&receiving), &[], &told);
    refused(&back(&coding), &[], &told);
    assert!([fs::read(&coding).unwrap(), fs::read(&receiving).unwrap()] == kept);
    for length in [CODING_STATE, CODING_RECORD] {
        fs::write(&coding, vec![0; length]).unwrap();
        refused(&code(&coding), &[], &["no good coding record", "refusal 7"]);
    }
    for length in [RECEIVING_STATE, RECEIVING_RECORD] {
        fs::write(&receiving, vec![0; length]).unwrap();
        let told = ["no good receiving record", "refusal 7"];
        refused(&back(&receiving), &[], &told);
    }
}

/// A file with the state of one layer is layer A alone, and becomes a record.
#[test]
fn states_of_one_layer_are_gone_on_from() {
    let folder = folder("states-old");
    let paths = ["coding", "receiving", "old coding", "old receiving"];
    let [coding, receiving, old_coding, old_receiving] = paths.map(|name| path(&folder, name));
    let stream = packets(&mut Random::new(43), 2 * COUNT);
    let (first, second) = stream.split_at(PACKET * COUNT);
    let code = |state: &str, part| ok(&options("code", SETTINGS[1], &["--state", state]), part);
    let back = |state: &str, part: &[u8]| {
        let words = ["back", "--state", state].map(String::from);
        match Path::new(state).exists() {
            true => ok(&words, part),
            false => ok(&options("back", SETTINGS[1], &["--state", state]), part),
        }
    };
    back(&receiving, &code(&coding, first));
    // layer A of the record is what was kept where there was no record
    let layer_a = |path: &str, length: usize| fs::read(path).unwrap()[1..][..length].to_vec();
    fs::write(&old_coding, layer_a(&coding, CODING_STATE)).unwrap();
    fs::write(&old_receiving, layer_a(&receiving, RECEIVING_STATE)).unwrap();
    let (one, other) = (code(&coding, second), code(&old_coding, second));
    assert!(one == other);
    assert!(back(&receiving, &one) == back(&old_receiving, &other));
    assert!(fs::read(&coding).unwrap() == fs::read(&old_coding).unwrap());
    assert!(fs::read(&receiving).unwrap() == fs::read(&old_receiving).unwrap());
}
