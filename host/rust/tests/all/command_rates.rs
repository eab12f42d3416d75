//! The times of frames and the bit rates that the command tells.

use crate::running::{ok, options, usage};

fn table(words: &[&str]) -> String {
    let words: Vec<String> = words.iter().map(|word| word.to_string()).collect();
    String::from_utf8(ok(&words, &[])).unwrap()
}

/// The rates stand behind the other columns, and the time of a frame behind the table.
#[test]
fn rates_and_times() {
    let words = options("frames", ["3", "64qam", "7/8", "13"], &[]);
    let shown = String::from_utf8(ok(&words, &[])).unwrap();
    let rows: Vec<Vec<&str>> = shown
        .lines()
        .map(|line| line.split_whitespace().collect())
        .collect();
    let names = ["bit/s-1/4", "bit/s-1/8", "bit/s-1/16", "bit/s-1/32"];
    assert_eq!(rows[0][7..], names);
    // the standard's tables have 19.168, 21.298, 22.551 and 23.234 million
    let rates = ["19168627", "21298474", "22551326", "23234699"];
    assert_eq!(rows[1][7..], rates);
    assert_eq!(rows[2].len(), 0);
    let times = "a frame of mode 3 takes 257.04 ms at 1/4, 231.336 ms at 1/8, 218.484 ms at 1/16, 212.058 ms at 1/32";
    assert_eq!(shown.lines().nth(3), Some(times));
    assert_eq!(rows.len(), 4);
}

/// A rate is never more than a frame's packets take in its time, and less by less than a bit a second.
#[test]
fn rates_are_rounded_down() {
    let shown = table(&["frames"]);
    let rows = shown.lines().skip(1).take(585);
    let mut seen = 0;
    for row in rows {
        let row: Vec<&str> = row.split_whitespace().collect();
        let number = |place: usize| row[place].parse::<u128>().unwrap();
        for (place, parts) in [(7, 4), (8, 8), (9, 16), (10, 32)] {
            // in units of a symbol's time without its guard interval, of which there are so many a second
            let (bits, second) = (number(5) * 8, 1_000_000 * parts);
            let frame = 204 * 252 * (1 << (number(0) - 1)) * (parts + 1);
            assert!(number(place) * frame <= bits * second);
            assert!((number(place) + 1) * frame > bits * second);
            seen += 1;
        }
        assert!(row.len() == 11);
    }
    assert_eq!(seen, 4 * 585);
    assert!(shown.lines().all(|line| line.len() < 140));
    let times = |mode: &str| format!("a frame of mode {mode} takes ");
    for mode in ["1", "2", "3"] {
        assert_eq!(shown.matches(&times(mode)).count(), 1);
    }
}

/// One guard interval alone, for settings and for a station.
#[test]
fn one_guard_interval() {
    let shown = table(&["frames", "--mode", "1", "--guard", "1/32"]);
    let head = shown.lines().next().unwrap();
    assert!(head.ends_with("carriers  bit/s-1/32"));
    assert!(shown.ends_with("\n\na frame of mode 1 takes 53.0145 ms at 1/32\n"));
    let station = ["--layer", "A=qpsk,2/3,1", "--layer", "B=64qam,3/4,12"];
    let words = [&["frames", "--mode", "1", "--guard=1/8"], &station[..]].concat();
    let shown = table(&words);
    let layer = shown.lines().nth(1).unwrap();
    assert!(
        layer.starts_with('A') && layer.ends_with(" 416087"),
        "{shown}"
    );
    assert!(shown.ends_with("13\n\na frame of mode 1 takes 57.834 ms at 1/8\n"));
    for wrong in ["1/5", "0", "", "1/64", "4"] {
        usage(&["frames", "--guard", wrong]);
    }
}
