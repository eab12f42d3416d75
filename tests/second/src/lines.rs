//! Lines of hexadecimal digits, as every program here reads and prints them.

/// The lines of a text. What stands behind the last line feed is a line only if there is any of it.
pub fn lines(text: &[u8]) -> Vec<&[u8]> {
    let mut lines: Vec<&[u8]> = text.split(|&byte| byte == b'\n').collect();
    if lines.last().map_or(false, |last: &&[u8]| last.is_empty()) {
        lines.pop();
    }
    lines
}

/// The bytes that a line writes, two digits each, of either case. Nothing where it holds anything else.
pub fn bytes(line: &[u8]) -> Option<Vec<u8>> {
    if !line.iter().all(u8::is_ascii_hexdigit) || line.len() % 2 == 1 {
        return None;
    }
    let text = std::str::from_utf8(line).ok()?;
    let places = (0..text.len()).step_by(2);
    places
        .map(|at| u8::from_str_radix(&text[at..at + 2], 16).ok())
        .collect()
}

/// Bytes as digits, capitals.
pub fn digits(bytes: &[u8]) -> String {
    bytes.iter().map(|byte| format!("{byte:02X}")).collect()
}

#[cfg(test)]
mod tests {
    use super::*;

    #[test]
    fn a_text_has_its_lines() {
        let none: Vec<&[u8]> = Vec::new();
        assert_eq!(lines(b""), none);
        assert_eq!(lines(b"\n"), [b""]);
        assert_eq!(lines(b"a\nb"), [b"a", b"b"]);
        assert_eq!(lines(b"a\nb\n"), [b"a", b"b"]);
        assert_eq!(lines(b"a\n\n"), [&b"a"[..], b""]);
    }

    #[test]
    fn digits_are_read_and_written() {
        assert_eq!(bytes(b"0aF9"), Some(vec![0x0A, 0xF9]));
        assert_eq!(bytes(b""), Some(vec![]));
        for wrong in ["0", "0aF", "0x", "+1", "0aF9\r", " 0", "0G", "0g"] {
            assert_eq!(bytes(wrong.as_bytes()), None);
        }
        assert_eq!(digits(&[0x0A, 0xF9]), "0AF9");
    }
}
