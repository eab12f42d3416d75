//! What the program `frames` prints, by lines of text.

use crate::layer::Numbers;
use crate::lines;
use crate::random::Random;

const OTHER: &str = "FF000000000000";

/// The layer's numbers that a settings line writes; nothing where it is none.
pub fn settings(line: &[u8]) -> Option<Numbers> {
    let four: [u8; 4] = lines::bytes(line)?.try_into().ok()?;
    Some(Numbers::from(four))
}

/// The answer to one line, without its line feed.
fn answer(line: &[u8]) -> String {
    match settings(line).map(Numbers::sizes) {
        None => OTHER.to_string(),
        Some(Ok(sizes)) => format!("00{:04X}{:08X}", sizes.packets, sizes.carriers),
        Some(Err(refusal)) => format!("{refusal:02X}{:04X}{:08X}", 0, 0),
    }
}

/// The answers to a text. Its last line may lack its line feed.
pub fn answers(text: &[u8]) -> Vec<u8> {
    let mut out = Vec::new();
    for line in lines::lines(text) {
        out.extend_from_slice(answer(line).as_bytes());
        out.push(b'\n');
    }
    out
}

/// Lines of text for the run case: document 01's five, digits of either case, each refusal and the first of several, and lines that
/// are too short, empty or too long.
const LINES: [&str; 29] = [
    "03020201",
    "01020101",
    "0306050D",
    "04020201",
    "03",
    "0306050d",
    "0306050D",
    "01020101",
    "0204030a",
    "0204030A",
    "00020101",
    "FF020101",
    "01000101",
    "01030101",
    "01080101",
    "01020001",
    "01020601",
    "01020100",
    "0102010E",
    "ffffffff",
    "",
    "0",
    "0102010",
    "010201011",
    "0102010101020101",
    " 01020101",
    "01020101 ",
    "0x020101",
    "+1020101",
];

/// More lines for it: a carriage return, bytes that are no digits, the neighbours of the digits.
const BYTES: [&[u8]; 11] = [
    b"01020101\r",
    b"\r",
    b"0102010G",
    b"0102010g",
    b"0102010/",
    b"0102010:",
    b"0102010@",
    b"0102010`",
    b"\0\0\0\0\0\0\0\0",
    b"0102\x0101",
    b"\xFF\xFE0201\x80\x81",
];

/// The input of the run case of `frames`: document 01's five lines, and every kind of line that is none.
pub fn sample() -> Vec<u8> {
    let mut lines: Vec<Vec<u8>> = LINES.map(|line| line.as_bytes().to_vec()).to_vec();
    lines.extend(BYTES.map(<[u8]>::to_vec));
    // a line of a megabyte of digits, one of zeros, and a good one after them
    lines.push(b"01020101".repeat(131072));
    lines.push(vec![b'0'; 9]);
    lines.push(b"01020101".to_vec());
    // the last line lacks its line feed
    lines.push(b"0306050D".to_vec());
    lines.join(&b'\n')
}

/// Every legal setting and those around them, the segments fastest.
pub fn around() -> Vec<u8> {
    let mut text = String::new();
    for mode in 0..5 {
        for bits in 0..9 {
            for rate in 0..7 {
                for segments in 0..16 {
                    text += &format!("{mode:02X}{bits:02X}{rate:02X}{segments:02X}\n");
                }
            }
        }
    }
    text.into_bytes()
}

/// One line of a random text: most often near the legal settings, now and then of another form.
fn random_line(random: &mut Random) -> Vec<u8> {
    let [mode, bits, rate, segments] = [5, 8, 7, 16].map(|end| random.below(end));
    let mut line = format!("{mode:02X}{bits:02X}{rate:02X}{segments:02X}").into_bytes();
    let at = random.below(8) as usize;
    match random.below(16) {
        0 => line[at] = random.below(256) as u8,
        1 => line.truncate(at),
        2 => line.insert(at, b'0'),
        3 => {
            line = (0..random.below(40))
                .map(|_| random.below(256) as u8)
                .collect()
        }
        4..=6 => line.make_ascii_lowercase(),
        7 => line = format!("{:08X}", random.below(1 << 32)).into_bytes(),
        _ => {}
    }
    line
}

/// A random text of so many lines. (A line of random bytes may hold line feeds.)
pub fn random_text(seed: u64, lines: u64) -> Vec<u8> {
    let mut random = Random::new(seed);
    let mut text = Vec::new();
    for _ in 0..lines {
        text.extend_from_slice(&random_line(&mut random));
        text.push(b'\n');
    }
    if random.below(2) == 0 {
        text.pop();
    }
    text
}
