//! The doors as C sees them: `host/c/warintaya.h` says what each does, and the crate of `host/rust` declares
//! and links them. A slice goes as a pointer and a length, the three layers of a start as a pointer to nine bytes.

use warintaya::doors::{
    warintaya_back, warintaya_carriers, warintaya_code, warintaya_disperse_interleave,
    warintaya_packets, warintaya_receive_start, warintaya_replace, warintaya_start,
};

/// A door that takes a layer's four numbers and gives a size of its frames.
pub type Size = unsafe extern "C" fn(u8, u8, u8, u8) -> usize;

/// The door that codes: the record, the layer's name, the packets, the carriers.
pub type Coding = unsafe extern "C" fn(*mut u8, usize, u8, *const u8, usize, *mut u8, usize) -> u8;

/// The door that replaces: the record, the layer's name, the carriers, the packet's number, the old packet and the new one.
pub type Replacing = unsafe extern "C" fn(
    *mut u8,
    usize,
    u8,
    *mut u8,
    usize,
    usize,
    *const u8,
    usize,
    *const u8,
    usize,
) -> u8;

/// The door that disperses and interleaves: the record, the layer's name, the place, the word, the word that comes out.
pub type DispersingInterleaving =
    unsafe extern "C" fn(*mut u8, usize, u8, usize, *const u8, usize, *mut u8, usize) -> u8;

/// A door that takes a mode and the nine bytes of three layers, and fills a record.
pub type Starting = unsafe extern "C" fn(u8, *const u8, *mut u8, usize) -> u8;

/// The door that goes back: the record, the layer's name, the carriers, the slots, and how many of them it has filled.
pub type Back =
    unsafe extern "C" fn(*mut u8, usize, u8, *const u8, usize, *mut u8, usize, *mut u64) -> u8;

/// A set of doors to hold to the second program.
pub struct Doors {
    pub start: Starting,
    pub packets: Size,
    pub carriers: Size,
    pub disperse_interleave: DispersingInterleaving,
    pub code: Coding,
    pub replace: Replacing,
    pub receive_start: Starting,
    pub back: Back,
}

/// The doors of the compiled library.
pub fn compiled() -> Doors {
    Doors {
        start: warintaya_start,
        packets: warintaya_packets,
        carriers: warintaya_carriers,
        disperse_interleave: warintaya_disperse_interleave,
        code: warintaya_code,
        replace: warintaya_replace,
        receive_start: warintaya_receive_start,
        back: warintaya_back,
    }
}
