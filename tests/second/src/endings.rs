//! Texts for the programs `coding` and `receiving` that end in every way: at once, by a refused or larger layer, by a line of wrong
//! form or length, and by the end of the text.

use crate::layer::Numbers;
use crate::lines::digits;
use crate::texts::{settings_line, text, Program, Sender, Way};

/// A text and its name.
pub type Named = (String, Vec<u8>);

/// The layer of these texts, the smallest.
const LAYER: [u8; 4] = [1, 2, 1, 1];

/// The layer whose frames have the longest lines that the programs take: 126 packets, 39,168 carriers.
const LARGEST: [u8; 4] = [1, 6, 5, 2];

/// What is done with a good frame line to make it one of wrong length.
fn of_wrong_length(line: &[u8]) -> Vec<Named> {
    let mut all = Vec::new();
    let (length, short) = (line.len(), line.len() - 1);
    let mut add = |name: &str, bytes: Vec<u8>| all.push((name.to_string(), bytes));
    add("empty", Vec::new());
    add("one-digit", line[..1].to_vec());
    add("without-its-last-digit", line[..short].to_vec());
    add("without-its-first-digit", line[1..].to_vec());
    add("without-its-last-byte", line[..short - 1].to_vec());
    add("with-a-digit-more", [line, b"0"].concat());
    add("with-a-byte-more", [line, b"47"].concat());
    add("twice", [line, line].concat());
    add("half", line[..length / 2].to_vec());
    add("with-a-carriage-return", [line, b"\r"].concat());
    add("space-before", [b" ", line].concat());
    add("settings-once-more", b"01020101".to_vec());
    add("a-megabyte-of-digits", b"47".repeat(1 << 19));
    all
}

/// What is done with a good frame line to make it one of wrong form.
fn of_wrong_form(line: &[u8]) -> Vec<Named> {
    let mut all = Vec::new();
    let (length, short) = (line.len(), line.len() - 1);
    let mut add = |name: &str, bytes: Vec<u8>| all.push((name.to_string(), bytes));
    add("carriage-return-for-the-last-digit", {
        [&line[..short], b"\r"].concat()
    });
    // no digits, and the neighbours of the digits
    for (place, at) in [("first", 0), ("middle", length / 2), ("last", short)] {
        for byte in [0, b'/', b':', b'@', b'G', b'`', b'g', b' ', 0x80, 0xFF] {
            let mut wrong = line.to_vec();
            wrong[at] = byte;
            add(&format!("byte-{byte:02X}-at-the-{place}-digit"), wrong);
        }
    }
    all
}

/// Frame lines of wrong form or length: as the first frame, with a good one behind it that is no longer answered; and as the
/// second, at the text's end without a line feed.
fn bad_frames(settings: &[u8], good: &[u8], spoiled: Vec<Named>) -> Vec<Named> {
    let mut all = Vec::new();
    for (name, wrong) in spoiled {
        let first = text(&[settings.to_vec(), wrong.clone(), good.to_vec()]);
        all.push((format!("first-frame-{name}"), first));
        let mut second = text(&[settings.to_vec(), good.to_vec(), wrong.clone()]);
        // what is behind the last line feed is a line only if there is any of it
        if !wrong.is_empty() {
            second.pop();
        }
        all.push((format!("second-frame-{name}"), second));
    }
    all
}

/// Lines that are no settings, and their names.
const NO_SETTINGS: [(&str, &[u8]); 12] = [
    ("seven-digits", b"0102010"),
    ("nine-digits", b"010201010"),
    ("five-bytes", b"0102010101"),
    ("two-digits", b"01"),
    ("carriage-return", b"01020101\r"),
    ("seven-and-carriage-return", b"0102010\r"),
    ("no-digit-first", b"G1020101"),
    ("no-digit-last", b"0102010G"),
    ("prefix", b"0x020101"),
    ("sign", b"+1020101"),
    ("zero-bytes", b"\0\0\0\0\0\0\0\0"),
    ("high-bytes", b"\xFF\xFE0201\x80\x81"),
];

/// Settings lines that start nothing: refused, of a larger layer, of wrong form. A good frame stands behind.
fn bad_settings(good: &[u8]) -> Vec<Named> {
    let mut all = Vec::new();
    let mut add = |name: String, settings: &[u8]| {
        let settings = settings.to_vec();
        all.push((format!("{name}-alone"), settings.clone()));
        all.push((name, text(&[settings, good.to_vec()])));
    };
    for line in [
        "00020101", "04020101", "ff020101", "01000101", "01030101", "01080101", "01020001",
        "01020601", "01020100", "0102010E", "0302010e", "00000000", "FFFFFFFF",
    ] {
        add(format!("refused-{line}"), line.as_bytes());
    }
    for layer in [
        [1, 2, 1, 3],
        [1, 6, 5, 13],
        [2, 2, 1, 2],
        [2, 4, 3, 3],
        [3, 2, 1, 1],
        [3, 6, 5, 13],
    ] {
        let line = settings_line(Numbers::from(layer));
        add(format!("larger-{line}"), line.as_bytes());
    }
    for (name, line) in NO_SETTINGS {
        add(format!("settings-{name}"), line);
    }
    all.push(("settings-missing".to_string(), text(&[good.to_vec()])));
    all
}

/// Texts that end without a line of wrong form, and some that end at once.
fn whole(settings: &[u8], good: &[u8], refused: &[u8]) -> Vec<Named> {
    let lines = |lines: &[&[u8]]| lines.join(&b'\n');
    let all: [(&str, Vec<u8>); 14] = [
        ("nothing", Vec::new()),
        ("line-feed", b"\n".to_vec()),
        ("two-line-feeds", b"\n\n".to_vec()),
        ("carriage-return-line-feed", b"\r\n".to_vec()),
        (
            "settings-behind-an-empty-line",
            lines(&[b"", settings, b""]),
        ),
        ("settings-alone", settings.to_vec()),
        ("settings-and-line-feed", lines(&[settings, b""])),
        ("settings-and-two-line-feeds", lines(&[settings, b"", b""])),
        ("frame-without-line-feed", lines(&[settings, good])),
        ("frame-and-line-feed", lines(&[settings, good, b""])),
        (
            "frame-and-two-line-feeds",
            lines(&[settings, good, b"", b""]),
        ),
        (
            "refused-frame-at-the-end",
            lines(&[settings, good, refused]),
        ),
        ("refused-frames", lines(&[settings, refused, refused, good])),
        (
            "refused-frame-and-a-bad-one",
            lines(&[settings, refused, b"0", good]),
        ),
    ];
    all.into_iter()
        .map(|(name, text)| (name.to_string(), text))
        .collect()
}

/// The settings line of a layer, and a good and a refused frame line.
fn lines_of(program: Program, layer: [u8; 4]) -> [Vec<u8>; 3] {
    let numbers = Numbers::from(layer);
    let mut sender = Sender::new(program, numbers, 9);
    let good = digits(&sender.good(Way::Wrong(0))).into_bytes();
    let refused = digits(&sender.refused()).into_bytes();
    [settings_line(numbers).into_bytes(), good, refused]
}

/// Every such text for a program, each with a name of its own.
pub fn all(program: Program) -> Vec<Named> {
    let [settings, good, refused] = lines_of(program, LAYER);
    let mut all = whole(&settings, &good, &refused);
    all.extend(bad_settings(&good));
    all.extend(bad_frames(&settings, &good, of_wrong_length(&good)));
    all.extend(bad_frames(&settings, &good, of_wrong_form(&good)));
    // the programs hold one byte more of a line than these have
    let [settings, good, _] = lines_of(program, LARGEST);
    for (name, text) in bad_frames(&settings, &good, of_wrong_length(&good)) {
        all.push((format!("largest-layer-{name}"), text));
    }
    all
}
