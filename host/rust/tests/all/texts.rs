//! The texts that the library answers with are those of the crate.

use std::ffi::CStr;
use std::os::raw::c_char;

use warintaya::Refusal;

extern "C" {
    fn warintaya_version() -> *const c_char;
    fn warintaya_refusal_text(refusal: u8) -> *const c_char;
}

/// A text of the library's.
fn text(there: *const c_char) -> &'static str {
    // SAFETY: it lasts for as long as the program, and ends with a zero
    let text = unsafe { CStr::from_ptr(there) };
    text.to_str().expect("plain English")
}

#[test]
fn the_library_is_of_this_version() {
    // SAFETY: it takes nothing
    let version = text(unsafe { warintaya_version() });
    assert_eq!(version, env!("CARGO_PKG_VERSION"));
}

#[test]
fn refusals_have_the_same_words() {
    for number in 0..=255 {
        // SAFETY: it takes a number, any of them
        let words = text(unsafe { warintaya_refusal_text(number) });
        match (number, Refusal::from_number(number)) {
            (0, _) => assert_eq!(words, "done"),
            (_, Some(refusal)) => assert_eq!(words, refusal.words()),
            (_, None) => assert_eq!(words, "not a refusal"),
        }
    }
}
