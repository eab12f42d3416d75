//! The programs `coding` and `receiving`: what is printed for texts whose answer is known, and that one undoes the other.

use second::endings;
use second::frame::PACKET;
use second::lines::{bytes, digits, lines};
use second::programs::{coding, receiving};
use second::receiving::SLOT;
use second::texts::{self, layers, settings_line, text, Program, Sender, Way};

/// The lines printed for a text, of which each has its line feed.
fn printed(answers: fn(&[u8]) -> Vec<u8>, text: &[u8]) -> Vec<String> {
    let out = String::from_utf8(answers(text)).unwrap();
    assert!(out.is_empty() || out.ends_with('\n'));
    out.lines().map(str::to_string).collect()
}

/// Three frames through `coding`, and what it prints through `receiving`: the packets sent but for the last twelve, none corrected.
#[test]
fn receiving_undoes_coding() {
    for numbers in layers().into_iter().step_by(7) {
        let mut sender = Sender::new(Program::Coding, numbers, 3);
        let sent: Vec<Vec<u8>> = (0..3).map(|_| sender.packets()).collect();
        let mut text = settings_line(numbers) + "\n";
        for packets in &sent {
            text += &(digits(packets) + "\n");
        }
        let mut back = settings_line(numbers);
        for line in printed(coding, text.as_bytes()) {
            back += &("\n".to_string() + line.strip_prefix("00").unwrap());
        }
        let mut came = Vec::new();
        for line in printed(receiving, back.as_bytes()) {
            let slots = bytes(line.strip_prefix("00").unwrap().as_bytes()).unwrap();
            for slot in slots.chunks(SLOT) {
                assert_eq!(slot[0], 0);
                came.extend_from_slice(&slot[1..]);
            }
        }
        let sent = sent.concat();
        assert_eq!(came.len(), sent.len() - 12 * PACKET);
        assert_eq!(came[..], sent[..came.len()]);
    }
}

/// The smallest layer's first frame gives no packet: its line is 00 alone. A refused frame alters nothing.
#[test]
fn a_refused_frame_is_passed_over() {
    for (program, answers, refusal) in [
        (Program::Coding, coding as fn(&[u8]) -> Vec<u8>, "08"),
        (Program::Receiving, receiving, "0A"),
    ] {
        let numbers = layers()[0];
        let mut sender = Sender::new(program, numbers, 4);
        let [first, second] = [(); 2].map(|_| digits(&sender.good(Way::Wrong(5))).into_bytes());
        let refused = digits(&sender.refused()).into_bytes();
        let settings = settings_line(numbers).into_bytes();
        let plain = [settings.clone(), first.clone(), second.clone()];
        let with = [settings, refused.clone(), first, refused, second];
        let plain = printed(answers, &text(&plain));
        let with = printed(answers, &text(&with));
        assert_eq!(with, [refusal, &plain[0], refusal, &plain[1]]);
        assert_eq!(plain[0] == "00", program == Program::Receiving);
        assert_ne!(plain[0], plain[1]);
    }
}

/// What the last line of each ending is, told by its name.
fn last_line(name: &str) -> Option<&str> {
    let refused = |line: &str| match line {
        "00020101" | "04020101" | "ff020101" | "00000000" | "FFFFFFFF" => "01",
        "01000101" | "01030101" | "01080101" => "02",
        "01020001" | "01020601" => "03",
        _ => "04",
    };
    match name {
        "nothing" | "settings-alone" | "settings-and-line-feed" => None,
        "frame-without-line-feed" | "frame-and-line-feed" | "refused-frames" => Some("00"),
        "refused-frame-at-the-end" => Some("refused"),
        _ => match name
            .strip_prefix("refused-")
            .filter(|rest| !rest.contains("frame"))
        {
            Some(rest) => Some(refused(&rest[..8])),
            None => Some("FF"),
        },
    }
}

/// Each ending is printed as its name says, and nothing follows what ends the run.
#[test]
fn every_ending_is_as_its_name_says() {
    for (program, answers, refusal) in [
        (Program::Coding, coding as fn(&[u8]) -> Vec<u8>, "08"),
        (Program::Receiving, receiving, "0A"),
    ] {
        let all = endings::all(program);
        for (name, text) in &all {
            let printed = printed(answers, text);
            let last = printed.last().map(|line| &line[..2]);
            let should = last_line(name).map(|line| if line == "refused" { refusal } else { line });
            assert_eq!(last, should, "{name}");
            assert!(printed.len() <= lines(text).len(), "{name}");
            let count = match name.as_str() {
                _ if name.contains("second-frame") => 2,
                "frame-and-two-line-feeds" | "refused-frame-at-the-end" => 2,
                "refused-frame-and-a-bad-one" => 2,
                "refused-frames" => 3,
                _ => last.into_iter().count(),
            };
            assert_eq!(printed.len(), count, "{name}");
        }
        let mut names: Vec<&String> = all.iter().map(|(name, _)| name).collect();
        names.sort();
        names.dedup();
        assert_eq!(names.len(), all.len());
    }
}

/// Among the random texts frames are taken and refused, and the letters are of either case; no run ends early.
#[test]
fn random_texts_have_frames_of_both_kinds() {
    for (program, answers, refusal) in [
        (Program::Coding, coding as fn(&[u8]) -> Vec<u8>, "08"),
        (Program::Receiving, receiving, "0A"),
    ] {
        let (mut taken, mut refused) = (0, 0);
        for seed in (0..45).step_by(4) {
            let text = texts::random(program, seed, 4);
            let printed = printed(answers, &text);
            assert_eq!(printed.len(), 4);
            taken += printed.iter().filter(|line| line.starts_with("00")).count();
            refused += printed.iter().filter(|line| *line == refusal).count();
            assert_eq!(taken + refused, 4 * (1 + seed as usize / 4));
        }
        assert!(taken > 20 && refused > 3, "{taken} {refused}");
        let sample = texts::sample(program);
        assert!(sample.contains(&b'a') && sample.contains(&b'A') && !sample.ends_with(b"\n"));
        let kinds: Vec<String> = printed(answers, &sample);
        let kinds: Vec<&str> = kinds.iter().map(|line| &line[..2]).collect();
        assert_eq!(kinds, ["00", refusal, "00", "00"]);
    }
}
