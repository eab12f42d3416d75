//! Frames that go out where the input pauses.

use std::fs::File;
use std::io::{Read, Write};
use std::process::{Child, Command, Stdio};
use std::sync::mpsc::{channel, Receiver};
use std::thread;
use std::time::{Duration, Instant};

use crate::common::packets;
use crate::layers::{words, TWO};
use crate::running::{folder, ok, options, path, refused, usage};
use second::random::Random;
use warintaya::PACKET;

const SETTINGS: [&str; 4] = ["1", "qpsk", "1/2", "1"];

/// The packets and the carriers of a frame, and its time with the shortest guard interval.
const COUNT: u64 = 12;
const CARRIERS: usize = 19_584;
const TIME: Duration = Duration::from_nanos(53_014_500);

/// Long enough for a machine that has much else to do.
const LIMIT: Duration = Duration::from_secs(30);

fn stuff(more: &[&str]) -> Vec<String> {
    options(
        "code",
        SETTINGS,
        &[&["--stuff", "--guard", "1/32"], more].concat(),
    )
}

fn spawn(words: &[String]) -> Child {
    Command::new(env!("CARGO_BIN_EXE_warintaya"))
        .args(words)
        .stdin(Stdio::piped())
        .stdout(Stdio::piped())
        .stderr(Stdio::piped())
        .spawn()
        .unwrap()
}

/// Waits for the end of a run, and gives its status and what it says.
fn ended(child: &mut Child) -> (i32, String) {
    let begun = Instant::now();
    let status = loop {
        match child.try_wait().unwrap() {
            Some(status) => break status.code().unwrap(),
            None if begun.elapsed() > LIMIT => {
                child.kill().unwrap();
                panic!("it does not end");
            }
            None => thread::sleep(Duration::from_millis(5)),
        }
    };
    let mut said = String::new();
    let errors = child.stderr.as_mut().unwrap();
    errors.read_to_string(&mut said).unwrap();
    (status, said)
}

/// Reads a pipe to its end. What has come is sent when it is so many bytes, and at the end.
fn carriers_of(pipe: String, first: usize) -> Receiver<Vec<u8>> {
    let (sender, receiver) = channel();
    thread::spawn(move || {
        let mut pipe = File::open(pipe).unwrap();
        let mut carriers = vec![0; first];
        pipe.read_exact(&mut carriers).unwrap();
        sender.send(carriers.clone()).unwrap();
        pipe.read_to_end(&mut carriers).unwrap();
        sender.send(carriers).unwrap();
    });
    receiver
}

/// The number that stands in front of some words.
fn number(said: &str, words: &str) -> u64 {
    let front = said.split(words).next().unwrap();
    let number = front.rsplit(|letter: char| !letter.is_ascii_digit());
    number.into_iter().next().unwrap().parse().unwrap()
}

/// Frames go out while the input says nothing, each in its time, and the stream comes back without what was put in.
#[test]
fn pauses_are_filled() {
    let stream = packets(&mut Random::new(81), 45);
    let (first, rest) = stream.split_at(20 * PACKET + 100);
    let begun = Instant::now();
    let mut child = spawn(&stuff(&[]));
    let mut input = child.stdin.take().unwrap();
    let mut output = child.stdout.take().unwrap();
    input.write_all(first).unwrap();
    // the input is within a packet, and stays there
    let mut carriers = vec![0; 5 * CARRIERS];
    output.read_exact(&mut carriers).unwrap();
    // two of the frames may have been full, and the others have waited
    assert!(begun.elapsed() >= 3 * TIME);
    input.write_all(rest).unwrap();
    drop(input);
    output.read_to_end(&mut carriers).unwrap();
    let (status, said) = ended(&mut child);
    assert_eq!(status, 0, "{said}");
    assert!(ok(&options("back", SETTINGS, &[]), &carriers) == stream);
    assert!(said.starts_with("code: 45 packets, "), "{said}");
    let [stuffed, padded, frames] =
        [" stuffed", " of padding", " frames of"].map(|words| number(&said, words));
    assert_eq!(frames as usize * CARRIERS, carriers.len());
    assert_eq!(45 + stuffed + padded, COUNT * frames);
    assert!(stuffed >= 5 * COUNT - 20, "{said}");
}

/// The frames before the first packet are stuffed too; where the input ends without one nothing more follows.
#[test]
fn an_input_that_says_nothing() {
    let mut child = spawn(&stuff(&[]));
    let input = child.stdin.take().unwrap();
    let mut output = child.stdout.take().unwrap();
    let mut carriers = vec![0; 2 * CARRIERS];
    output.read_exact(&mut carriers).unwrap();
    drop(input);
    output.read_to_end(&mut carriers).unwrap();
    let (status, said) = ended(&mut child);
    assert_eq!(status, 0, "{said}");
    assert!(said.starts_with("code: 0 packets, ") && said.contains(" stuffed and 0 of padding"));
    assert!(ok(&options("back", SETTINGS, &[]), &carriers).is_empty());
    let all = ok(&options("back", SETTINGS, &["--keep-padding"]), &carriers);
    assert_eq!(all.len(), PACKET * 12 * (carriers.len() / CARRIERS - 1));
}

/// An input that does not pause is coded as ever, as quick as it comes, in other forms and behind a lost sync too.
#[test]
fn an_input_that_does_not_pause() {
    let stream = packets(&mut Random::new(82), 3000);
    let carriers = ok(&stuff(&[]), &stream);
    assert!(ok(&options("back", SETTINGS, &[]), &carriers) == stream);
    let mut holed = stream.clone();
    holed.splice(1000 * PACKET..1000 * PACKET, [0; 50]);
    let mut child = spawn(&stuff(&["--resync"]));
    let mut input = child.stdin.take().unwrap();
    let writer = thread::spawn(move || input.write_all(&holed).unwrap());
    let (mut carriers, mut output) = (Vec::new(), child.stdout.take().unwrap());
    output.read_to_end(&mut carriers).unwrap();
    writer.join().unwrap();
    let (status, said) = ended(&mut child);
    assert_eq!(status, 0, "{said}");
    assert!(said.starts_with("code: lost the sync at byte 188000 of standard input, 50 bytes"));
    assert!(said.contains("; lost the sync 1 time, 50 bytes left out"));
    assert!(ok(&options("back", SETTINGS, &[]), &carriers) == stream);
}

/// Each layer has its own pauses: one says nothing while the other goes on, and a frame of each goes out in turn.
#[test]
fn layers_pause_by_themselves() {
    let folder = folder("stuff-layers");
    let mut random = Random::new(83);
    let (small, large) = (packets(&mut random, 17), packets(&mut random, 1000));
    std::fs::write(folder.join("B.ts"), &large).unwrap();
    let mut words = words("code", &TWO, &["--stuff", "--guard", "1/32", "-i", "A=-"]);
    words.extend(["-i".to_string(), format!("B={}", path(&folder, "B.ts"))]);
    let pipes = ["A", "B"].map(|letter| path(&folder, &format!("{letter}.pipe")));
    for (letter, pipe) in ["A", "B"].into_iter().zip(&pipes) {
        assert!(Command::new("mkfifo").arg(pipe).status().unwrap().success());
        words.extend(["-o".to_string(), format!("{letter}={pipe}")]);
    }
    let mut child = spawn(&words);
    let mut input = child.stdin.take().unwrap();
    let [a, b] = pipes.map(|pipe| carriers_of(pipe, 4 * CARRIERS));
    // layer A waits for its first packets, and layer B's frames are among its own
    a.recv_timeout(LIMIT).expect("frames of layer A");
    input.write_all(&small).unwrap();
    drop(input);
    let (status, said) = ended(&mut child);
    assert_eq!(status, 0, "{said}");
    assert!(
        said.contains("code: layer A: 17 packets, ") && said.contains("layer B: 1000 packets, ")
    );
    for (letter, stream, pipe) in [("A", small, a), ("B", large, b)] {
        let carriers = pipe.iter().last().expect("carriers");
        let back = crate::layers::words("back", &TWO, &["-i", &format!("{letter}=-")]);
        assert!(ok(&back, &carriers) == stream, "layer {letter}");
    }
}

/// What is wrong with the input is told as ever; and a run ends with its output, though the input has not ended.
#[test]
fn failures_end_a_run() {
    let mut stream = packets(&mut Random::new(84), 40);
    stream[30 * PACKET] = 0x48;
    let told = ["packet 30 begins with 48", "at byte 5640", "refusal 8"];
    refused(&stuff(&[]), &stream, &told);
    let mut child = spawn(&stuff(&[]));
    let input = child.stdin.take().unwrap();
    drop(child.stdout.take());
    let (status, said) = ended(&mut child);
    assert_eq!((status, said.lines().count()), (1, 1), "{said}");
    assert!(said.contains("standard output can't be written"));
    drop(input);
}

/// The time of a frame is needed, and nothing else goes with it.
#[test]
fn stuffing_is_called_as_it_can_be() {
    for words in [
        &["--stuff"][..],
        &["--guard", "1/4"],
        &["--stuff", "--guard", "1/4", "--exact"],
        &["--stuff", "--guard", "1/3"],
        &["--stuff=yes", "--guard", "1/4"],
    ] {
        let words = options("code", SETTINGS, words);
        usage(&words.iter().map(String::as_str).collect::<Vec<_>>());
    }
}
