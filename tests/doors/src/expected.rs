//! What each door should do to the areas that it is lent, by the second program. A record area of another length is a record that
//! isn't good.

use second::layer::Numbers;
use second::record::{self, Coding, Receiving};

use crate::records::{Kind, Layers, Record};

const NOT_GOOD: u8 = 7;

/// Fills an area of the right length. Given another one, a start leaves it alone and answers 7, after 1 to 4 and 12.
pub fn start(kind: Kind, mode: u8, layers: Layers, area: &mut [u8]) -> u8 {
    let (number, record) = match kind {
        Kind::Coding => {
            let (number, record) = Coding::start(mode, layers);
            (number, record.bytes())
        }
        Kind::Receiving => {
            let (number, record) = Receiving::start(mode, layers);
            (number, record.bytes())
        }
    };
    if area.len() == record.len() {
        area.copy_from_slice(&record);
        return number;
    }
    if number == 0 {
        NOT_GOOD
    } else {
        number
    }
}

/// What refuses a layer's four numbers, or 0.
pub fn refusal(numbers: [u8; 4]) -> u8 {
    Numbers::from(numbers).sizes().err().unwrap_or(0)
}

/// P and C, or zeros.
pub fn sizes(numbers: [u8; 4]) -> (usize, usize) {
    match Numbers::from(numbers).sizes() {
        Ok(sizes) => (sizes.packets as usize, sizes.carriers as usize),
        Err(_) => (0, 0),
    }
}

/// What a call does to a coding record: the answer, and the record as the call leaves it.
fn moved(record: &mut Record, call: impl FnOnce(&Coding) -> (u8, Coding)) -> u8 {
    let coding = match Coding::from_bytes(&record.area) {
        Some(coding) => coding,
        None => return NOT_GOOD,
    };
    let (number, after) = call(&coding);
    record.area.copy_from_slice(&after.bytes());
    number
}

pub fn disperse_interleave(record: &mut Record, place: usize, word: &[u8], out: &mut [u8]) -> u8 {
    let name = record.layer;
    moved(record, |coding| {
        record::disperse_interleave(coding, name, place, word, out)
    })
}

pub fn code(record: &mut Record, packets: &[u8], carriers: &mut [u8]) -> u8 {
    let name = record.layer;
    moved(record, |coding| {
        record::code(coding, name, packets, carriers)
    })
}

pub fn replace(
    record: &mut Record,
    carriers: &mut [u8],
    number: usize,
    old: &[u8],
    new: &[u8],
) -> u8 {
    let name = record.layer;
    moved(record, |coding| {
        record::replace(coding, name, carriers, number, old, new)
    })
}

/// The answer, and how many slots are given.
pub fn back(record: &mut Record, carriers: &[u8], slots: &mut [u8]) -> (u8, u64) {
    let receiving = match Receiving::from_bytes(&record.area) {
        Some(receiving) => receiving,
        None => return (NOT_GOOD, 0),
    };
    let (number, given, after) = record::back(&receiving, record.layer, carriers, slots);
    record.area.copy_from_slice(&after.bytes());
    (number, given as u64)
}
