//! The doors of the compiled library: declared as C sees them (`host/c/warintaya.h` says what each does), and each as a safe
//! function over slices. This is the only place of the crate with unsafe code.
//!
//! A slice goes as a pointer and a length, and the settings of three layers as a pointer to nine bytes. The library keeps no
//! pointer beyond the call and tests every length itself; slices that Rust lends at one time don't overlap where one of them is
//! written. That is all it asks for.
//!
//! A layer is named by 0, 1 or 2, and any other name is one of a layer that isn't used. The safe types of this crate,
//! [`Coder`](crate::Coder) and [`Receiver`](crate::Receiver), are made of these.

use crate::Refusal;

extern "C" {
    /// Starts a record. `layers` are nine bytes: v, rate and segments of A, B and C.
    pub fn warintaya_start(mode: u8, layers: *const u8, record: *mut u8, record_len: usize) -> u8;
    /// Codes a frame of a layer.
    pub fn warintaya_code(
        record: *mut u8,
        record_len: usize,
        layer: u8,
        packets: *const u8,
        packets_len: usize,
        carriers: *mut u8,
        carriers_len: usize,
    ) -> u8;
    /// Replaces a packet of a frame that is coded already.
    pub fn warintaya_replace(
        record: *mut u8,
        record_len: usize,
        layer: u8,
        carriers: *mut u8,
        carriers_len: usize,
        number: usize,
        old: *const u8,
        old_len: usize,
        new: *const u8,
        new_len: usize,
    ) -> u8;
    /// Disperses and byte-interleaves a word.
    pub fn warintaya_disperse_interleave(
        record: *mut u8,
        record_len: usize,
        layer: u8,
        place: usize,
        word: *const u8,
        word_len: usize,
        out: *mut u8,
        out_len: usize,
    ) -> u8;
    /// Starts a receiver's record. `layers` are nine bytes: v, rate and segments of A, B and C.
    pub fn warintaya_receive_start(
        mode: u8,
        layers: *const u8,
        record: *mut u8,
        record_len: usize,
    ) -> u8;
    /// Takes a frame of carriers of a layer, and gives packets.
    pub fn warintaya_back(
        record: *mut u8,
        record_len: usize,
        layer: u8,
        carriers: *const u8,
        carriers_len: usize,
        slots: *mut u8,
        slots_len: usize,
        given: *mut u64,
    ) -> u8;
    /// The packets of a frame.
    pub fn warintaya_packets(mode: u8, v: u8, rate: u8, segments: u8) -> usize;
    /// The carriers of a frame.
    pub fn warintaya_carriers(mode: u8, v: u8, rate: u8, segments: u8) -> usize;
}

/// The settings of A, B and C for a start: v, rate and segments of each, three zeros for a layer that isn't used.
pub type Layers = [[u8; 3]; 3];

/// A door's answer: 0 is done, and any other number a refusal. The library is proved to answer 0 to 10, 12 or 13.
fn answer(number: u8) -> Result<(), Refusal> {
    match Refusal::from_number(number) {
        None if number == 0 => Ok(()),
        None => unreachable!("a door answered {number}"),
        Some(refusal) => Err(refusal),
    }
}

/// P, the packets of a frame; 0 where the settings are not legal.
pub fn packets([mode, v, rate, segments]: [u8; 4]) -> usize {
    // SAFETY: nothing is lent
    unsafe { warintaya_packets(mode, v, rate, segments) }
}

/// C, the carriers of a frame; 0 where the settings are not legal.
pub fn carriers([mode, v, rate, segments]: [u8; 4]) -> usize {
    // SAFETY: nothing is lent
    unsafe { warintaya_carriers(mode, v, rate, segments) }
}

/// Starts a record: 1, then 2 to 4 of A, B and C in turn, then 12, and then 7 where the area has another length than
/// [`CODING_RECORD`](crate::CODING_RECORD).
///
/// Refused with 1 to 4 or 12 it fills an area of that length with zeros.
pub fn start(mode: u8, layers: &Layers, record: &mut [u8]) -> Result<(), Refusal> {
    let settings = layers.as_ptr().cast::<u8>();
    // SAFETY: the settings are nine bytes, and the slice is good for its length
    answer(unsafe { warintaya_start(mode, settings, record.as_mut_ptr(), record.len()) })
}

/// Codes a frame of a layer: 7, 13, 5, 6, 8.
pub fn code(
    record: &mut [u8],
    layer: u8,
    packets: &[u8],
    carriers: &mut [u8],
) -> Result<(), Refusal> {
    // SAFETY: each slice is good for its length, and those that are written overlap no other
    answer(unsafe {
        warintaya_code(
            record.as_mut_ptr(),
            record.len(),
            layer,
            packets.as_ptr(),
            packets.len(),
            carriers.as_mut_ptr(),
            carriers.len(),
        )
    })
}

/// Replaces a packet of a layer late: 7, 13, 6, 5, 9, 10, 8.
pub fn replace(
    record: &mut [u8],
    layer: u8,
    carriers: &mut [u8],
    number: usize,
    old: &[u8],
    new: &[u8],
) -> Result<(), Refusal> {
    // SAFETY: each slice is good for its length, and those that are written overlap no other
    answer(unsafe {
        warintaya_replace(
            record.as_mut_ptr(),
            record.len(),
            layer,
            carriers.as_mut_ptr(),
            carriers.len(),
            number,
            old.as_ptr(),
            old.len(),
            new.as_ptr(),
            new.len(),
        )
    })
}

/// Disperses a word for its place in a frame of a layer and byte-interleaves it: 7, 13, 5, 9.
pub fn disperse_interleave(
    record: &mut [u8],
    layer: u8,
    place: usize,
    word: &[u8],
    out: &mut [u8],
) -> Result<(), Refusal> {
    // SAFETY: each slice is good for its length, and those that are written overlap no other
    answer(unsafe {
        warintaya_disperse_interleave(
            record.as_mut_ptr(),
            record.len(),
            layer,
            place,
            word.as_ptr(),
            word.len(),
            out.as_mut_ptr(),
            out.len(),
        )
    })
}

/// Starts a receiver's record: 1, then 2 to 4 of A, B and C in turn, then 12, and then 7 where the area has another length than
/// [`RECEIVING_RECORD`](crate::RECEIVING_RECORD).
///
/// Refused with 1 to 4 or 12 it fills an area of that length with zeros.
pub fn receive_start(mode: u8, layers: &Layers, record: &mut [u8]) -> Result<(), Refusal> {
    let settings = layers.as_ptr().cast::<u8>();
    // SAFETY: the settings are nine bytes, and the slice is good for its length
    answer(unsafe { warintaya_receive_start(mode, settings, record.as_mut_ptr(), record.len()) })
}

/// Takes a frame of carriers of a layer, and says how many slots it gave: 7, 13, 6, 5, 10.
pub fn back(
    record: &mut [u8],
    layer: u8,
    carriers: &[u8],
    slots: &mut [u8],
) -> Result<usize, Refusal> {
    let mut given = 0;
    // SAFETY: each slice is good for its length, and those that are written overlap no other
    let number = unsafe {
        warintaya_back(
            record.as_mut_ptr(),
            record.len(),
            layer,
            carriers.as_ptr(),
            carriers.len(),
            slots.as_mut_ptr(),
            slots.len(),
            &mut given,
        )
    };
    // at most P, so that it fits
    answer(number).map(|()| given as usize)
}
