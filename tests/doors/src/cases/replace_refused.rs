//! Packets that are not replaced: each number of refusal, and the first of several.

use second::frame::{PACKET, SYNC};

use crate::cases::code::{packets, Contents};
use crate::cases::some;
use crate::check::{Check, Checked};
use crate::expected;
use crate::records::{self, Kind, Record};
use crate::states;

/// The parts of a call that a fault may be in.
#[derive(Clone)]
struct Call {
    numbers: [u8; 4],
    record: Record,
    carriers: Vec<u8>,
    number: usize,
    old: Vec<u8>,
    new: Vec<u8>,
}

/// A call that would be done.
fn good(check: &mut Check, numbers: [u8; 4]) -> Call {
    let (count, carriers) = expected::sizes(numbers);
    let state = states::random(&mut check.random, numbers);
    Call {
        numbers,
        record: check.record(Kind::Coding, &state),
        carriers: (0..carriers)
            .map(|_| check.random.below(1 << numbers[1]) as u8)
            .collect(),
        number: check.random.below(count as u64) as usize,
        old: packets(&mut check.random, 1, Contents::Random),
        new: packets(&mut check.random, 1, Contents::Random),
    }
}

fn refused(check: &mut Check, what: &str, call: &Call, number: u8) -> Checked {
    check.case(format!("settings {:?}, {what}", call.numbers));
    let (answer, _, _) = check.replace(
        &call.record,
        &call.carriers,
        call.number,
        &call.old,
        &call.new,
    )?;
    check.meant(answer, number)
}

/// A fault, and the number that it is refused with.
type Fault = (&'static str, u8, fn(&mut Call));

/// One fault of each number, in the order in which they are tested.
const FAULTS: [Fault; 10] = [
    ("a register of 64", 7, |call| {
        call.record.state_mut()[1126] = 64
    }),
    ("an unused layer named", 13, |call| {
        call.record.name_unused()
    }),
    ("layer 255 named", 13, |call| call.record.layer = 255),
    ("a carrier too many", 6, |call| call.carriers.push(0)),
    ("an old packet of 187 bytes", 5, |call| {
        call.old.truncate(PACKET - 1)
    }),
    ("a new packet of 189 bytes", 5, |call| call.new.push(0)),
    ("packet P", 9, |call| {
        call.number = expected::sizes(call.numbers).0
    }),
    ("a carrier of 2^v", 10, |call| {
        let last = call.carriers.len() / 2;
        call.carriers[last] = 1 << call.numbers[1];
    }),
    ("an old packet without its 47", 8, |call| call.old[0] = 0xB8),
    ("a new packet without its 47", 8, |call| call.new[0] = 0),
];

/// Each fault by itself, and each two: the first in the order is answered.
fn each_two(check: &mut Check, numbers: [u8; 4]) -> Checked {
    for (first, (what, number, fault)) in FAULTS.iter().enumerate() {
        let mut call = good(check, numbers);
        fault(&mut call);
        refused(check, what, &call, *number)?;
        for (also, _, other) in &FAULTS[first + 1..] {
            let mut both = call.clone();
            // what is written at a length or an index that the first fault took away is no second fault
            if both.old.is_empty() || both.new.is_empty() {
                continue;
            }
            other(&mut both);
            refused(check, &format!("{what}, and {also}"), &both, *number)?;
        }
    }
    Ok(())
}

/// Some of the faults at random, now and then with a record that isn't good.
pub fn random_faults(check: &mut Check, numbers: [u8; 4]) -> Checked {
    let mut call = good(check, numbers);
    let chosen = some(&mut check.random, &FAULTS);
    let within = call.number;
    chosen.iter().for_each(|(_, _, fault)| fault(&mut call));
    // a number that fewer bits would take for a packet's
    if call.number != within && check.random.below(2) == 0 {
        call.number = within + (1 << 32);
    }
    let names: Vec<&str> = chosen.iter().map(|(what, _, _)| *what).collect();
    if check.random.below(4) == 0 {
        let bad = records::any_bad(&mut check.random, Kind::Coding, numbers);
        call.record = bad.record;
        return refused(check, &format!("{}, and {names:?}", bad.why), &call, 7);
    }
    refused(check, &format!("{names:?}"), &call, chosen[0].1)
}

/// Packet P - 1 is replaced; from P on there is none.
fn numbers_from_p_on(check: &mut Check, numbers: [u8; 4]) -> Checked {
    let (count, _) = expected::sizes(numbers);
    let mut call = good(check, numbers);
    call.number = count - 1;
    refused(check, "packet P - 1", &call, 0)?;
    for number in [
        count,
        count + 1,
        2 * count,
        usize::MAX,
        1 << 32,
        usize::MAX / 1632,
    ] {
        call.number = number;
        refused(check, &format!("packet {number}"), &call, 9)?;
    }
    Ok(())
}

/// Carriers out of range, wherever they stand.
fn large_carriers(check: &mut Check, numbers: [u8; 4]) -> Checked {
    let (_, carriers) = expected::sizes(numbers);
    let call = good(check, numbers);
    for place in [0, 1, 119, 120, carriers / 3, carriers - 1] {
        for value in [1 << numbers[1], 128, 255] {
            let mut large = call.clone();
            large.carriers[place] = value;
            refused(check, &format!("carrier {place} of {value}"), &large, 10)?;
        }
    }
    Ok(())
}

/// Packets that don't begin with 47, the old one or the new.
fn first_bytes(check: &mut Check, numbers: [u8; 4]) -> Checked {
    let call = good(check, numbers);
    for byte in [0, 0x46, 0x48, 0xB8, 255] {
        let mut headless = call.clone();
        headless.old[0] = byte;
        let what = format!("an old packet that begins with {byte}");
        refused(check, &what, &headless, 8)?;
        headless.old[0] = SYNC;
        headless.new[0] = byte;
        let what = format!("a new packet that begins with {byte}");
        refused(check, &what, &headless, 8)?;
    }
    Ok(())
}

pub fn run(check: &mut Check) -> Checked {
    for numbers in [[1, 2, 1, 1], [1, 4, 3, 2], [2, 6, 5, 1]] {
        each_two(check, numbers)?;
        numbers_from_p_on(check, numbers)?;
        large_carriers(check, numbers)?;
        first_bytes(check, numbers)?;
        let mut call = good(check, numbers);
        for bad in records::bad(&mut check.random, Kind::Coding, numbers) {
            call.record = bad.record;
            refused(check, &bad.why, &call, 7)?;
        }
    }
    Ok(())
}
