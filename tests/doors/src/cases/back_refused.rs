//! Frames that do not go back: each number of refusal, and the first of several.

use second::receiving::SLOT;

use crate::cases::some;
use crate::check::{Check, Checked};
use crate::expected;
use crate::receiving_states::{self, REGISTER};
use crate::records::{self, Kind, Record};

/// The parts of a call that a fault may be in.
#[derive(Clone)]
struct Call {
    numbers: [u8; 4],
    record: Record,
    carriers: Vec<u8>,
    slots: usize,
}

/// A call that would be done.
fn good(check: &mut Check, numbers: [u8; 4]) -> Call {
    let (count, carriers) = expected::sizes(numbers);
    let state = receiving_states::random(&mut check.random, numbers);
    Call {
        numbers,
        record: check.record(Kind::Receiving, &state),
        carriers: (0..carriers)
            .map(|_| check.random.below(1 << numbers[1]) as u8)
            .collect(),
        slots: SLOT * count,
    }
}

fn refused(check: &mut Check, what: &str, call: &Call, number: u8) -> Checked {
    check.case(format!("settings {:?}, {what}", call.numbers));
    let back = check.back(&call.record, &call.carriers, call.slots)?;
    check.meant(back.answer, number)?;
    check.meant_given(back.slots.len(), 0)
}

/// A fault, and the number that it is refused with.
type Fault = (&'static str, u8, fn(&mut Call));

/// Faults of each number, in the order in which they are tested.
const FAULTS: [Fault; 9] = [
    ("a register of 64", 7, |call| {
        call.record.state_mut()[REGISTER] = 64
    }),
    ("a record too short", 7, |call| {
        call.record.area.truncate(13_680)
    }),
    ("an unused layer named", 13, |call| {
        call.record.name_unused()
    }),
    ("layer 3 named", 13, |call| call.record.layer = 3),
    ("a carrier too many", 6, |call| call.carriers.push(0)),
    ("a slot too few", 5, |call| call.slots -= SLOT),
    ("a byte of slots too many", 5, |call| call.slots += 1),
    ("a carrier of 2^v", 10, |call| {
        let middle = call.carriers.len() / 2;
        call.carriers[middle] = 1 << call.numbers[1];
    }),
    ("a carrier of 255", 10, |call| call.carriers[0] = 255),
];

/// Each fault by itself, and each two: the first in the order is answered.
fn each_two(check: &mut Check, numbers: [u8; 4]) -> Checked {
    for (first, (what, number, fault)) in FAULTS.iter().enumerate() {
        let mut call = good(check, numbers);
        fault(&mut call);
        refused(check, what, &call, *number)?;
        for (also, _, other) in &FAULTS[first + 1..] {
            let mut both = call.clone();
            other(&mut both);
            // one fault may undo the other only where they are of one number
            refused(check, &format!("{what}, and {also}"), &both, *number)?;
        }
    }
    // all at once, and all but those of the first numbers
    for (from, number) in [(0, 7), (2, 13), (4, 6), (5, 5)] {
        let mut call = good(check, numbers);
        FAULTS[from..].iter().for_each(|fault| fault.2(&mut call));
        refused(check, "several faults", &call, number)?;
    }
    Ok(())
}

/// Some of the faults at random, now and then with a record that isn't good.
pub fn random_faults(check: &mut Check, numbers: [u8; 4]) -> Checked {
    let mut call = good(check, numbers);
    let chosen = some(&mut check.random, &FAULTS);
    chosen.iter().for_each(|(_, _, fault)| fault(&mut call));
    let names: Vec<&str> = chosen.iter().map(|(what, _, _)| *what).collect();
    if check.random.below(4) == 0 {
        let bad = records::any_bad(&mut check.random, Kind::Receiving, numbers);
        call.record = bad.record;
        return refused(check, &format!("{}, and {names:?}", bad.why), &call, 7);
    }
    refused(check, &format!("{names:?}"), &call, chosen[0].1)
}

/// Areas of other lengths, and carriers out of range wherever they stand; of the last 120 positions too, which wait in the lines.
fn edges(check: &mut Check, numbers: [u8; 4]) -> Checked {
    let (count, carriers) = expected::sizes(numbers);
    let call = good(check, numbers);
    for length in [carriers - 1, carriers + 1, 2 * carriers, carriers / 2, 1, 0] {
        let mut other = call.clone();
        other.carriers.resize(length, 0);
        refused(check, &format!("{length} carriers"), &other, 6)?;
    }
    let whole = SLOT * count;
    for length in [
        whole - 1,
        whole + 1,
        whole - SLOT,
        whole + SLOT,
        whole - 12 * SLOT,
        188 * count,
        204 * count,
        1,
        0,
    ] {
        let mut other = call.clone();
        other.slots = length;
        refused(check, &format!("{length} bytes of slots"), &other, 5)?;
    }
    for place in [0, 1, 119, 120, carriers / 3, carriers - 120, carriers - 1] {
        for value in [1 << numbers[1], (1 << numbers[1]) + 1, 128, 255] {
            let mut large = call.clone();
            large.carriers[place] = value;
            refused(check, &format!("carrier {place} of {value}"), &large, 10)?;
            large.record = check.record(Kind::Receiving, &receiving_states::fresh(numbers));
            let what = format!("the first frame, carrier {place} of {value}");
            refused(check, &what, &large, 10)?;
        }
    }
    Ok(())
}

/// A refused call between two frames leaves the first one's record for the second.
fn between_frames(check: &mut Check, numbers: [u8; 4]) -> Checked {
    let mut call = good(check, numbers);
    check.case(format!("settings {numbers:?}, the frame before a refused"));
    call.record = check.record(Kind::Receiving, &receiving_states::fresh(numbers));
    let before = check.back(&call.record, &call.carriers, call.slots)?;
    check.meant(before.answer, 0)?;
    call.record = before.record.clone();
    call.carriers[7] |= 1 << numbers[1];
    check.case(format!("settings {numbers:?}, a refused frame between two"));
    let refused = check.back(&call.record, &call.carriers, call.slots)?;
    check.meant(refused.answer, 10)?;
    check.same(
        "the record after a refused frame",
        &refused.record.area,
        &before.record.area,
    )?;
    call.carriers[7] &= (1 << numbers[1]) - 1;
    check.case(format!("settings {numbers:?}, the frame after a refused"));
    let after = check.back(&refused.record, &call.carriers, call.slots)?;
    check.meant(after.answer, 0)
}

pub fn run(check: &mut Check) -> Checked {
    for numbers in [[1, 2, 1, 1], [1, 4, 4, 1], [1, 6, 5, 1], [2, 4, 3, 2]] {
        let mut call = good(check, numbers);
        for bad in records::bad(&mut check.random, Kind::Receiving, numbers) {
            call.record = bad.record;
            refused(check, &bad.why, &call, 7)?;
        }
        each_two(check, numbers)?;
        edges(check, numbers)?;
    }
    for numbers in [[1, 2, 1, 1], [1, 4, 4, 1], [1, 6, 5, 1]] {
        between_frames(check, numbers)?;
    }
    // the largest layer, where every count is longest
    each_two(check, [3, 6, 5, 13])
}
