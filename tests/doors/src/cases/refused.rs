//! Frames that are not coded: each number of refusal, and the first of several.

use second::frame::PACKET;

use crate::cases::code::{packets, Contents};
use crate::check::{Check, Checked};
use crate::expected;
use crate::records::{self, Kind, Record};
use crate::states;

/// The parts of a call that a fault may be in.
struct Call {
    numbers: [u8; 4],
    record: Record,
    packets: Vec<u8>,
    carriers: usize,
}

/// A call that would be done.
fn good(check: &mut Check, numbers: [u8; 4]) -> Call {
    let (count, carriers) = expected::sizes(numbers);
    let state = states::random(&mut check.random, numbers);
    Call {
        numbers,
        record: check.record(Kind::Coding, &state),
        packets: packets(&mut check.random, count, Contents::Random),
        carriers,
    }
}

fn refused(check: &mut Check, what: String, call: &Call, number: u8) -> Checked {
    check.case(format!("settings {:?}, {what}", call.numbers));
    let moved = check.code(&call.record, &call.packets, call.carriers)?;
    check.meant(moved.answer, number)
}

/// 7: every kind of record that isn't good.
fn bad_records(check: &mut Check, numbers: [u8; 4]) -> Checked {
    let mut call = good(check, numbers);
    for bad in records::bad(&mut check.random, Kind::Coding, numbers) {
        call.record = bad.record;
        refused(check, bad.why, &call, 7)?;
    }
    Ok(())
}

/// 13: a layer that is unused, and names that no layer has, for a frame that would do for the used one.
fn unused(check: &mut Check, numbers: [u8; 4]) -> Checked {
    let mut call = good(check, numbers);
    call.record.name_unused();
    refused(check, "an unused layer named".to_string(), &call, 13)?;
    for name in [3, 4, 128, 255] {
        call.record.layer = name;
        refused(check, format!("layer {name} named"), &call, 13)?;
    }
    Ok(())
}

/// 5 and 6: areas of other lengths.
fn lengths(check: &mut Check, numbers: [u8; 4]) -> Checked {
    let (count, carriers) = expected::sizes(numbers);
    let whole = PACKET * count;
    for length in [
        whole - 1,
        whole + 1,
        whole - PACKET,
        whole + PACKET,
        189 * count,
        204 * count,
        PACKET,
        1,
        0,
    ] {
        let mut call = good(check, numbers);
        call.packets.resize(length, 0x47);
        refused(check, format!("{length} bytes of packets"), &call, 5)?;
    }
    let mut call = good(check, numbers);
    for length in [carriers - 1, carriers + 1, 2 * carriers, carriers / 2, 1, 0] {
        call.carriers = length;
        refused(check, format!("{length} carriers"), &call, 6)?;
    }
    Ok(())
}

/// 8: a packet that doesn't begin with 47, wherever it stands; B8 is DVB's inverted sync byte.
fn sync_bytes(check: &mut Check, numbers: [u8; 4]) -> Checked {
    let count = expected::sizes(numbers).0;
    for packet in [0, 1, count / 2, count - 2, count - 1] {
        for byte in [0, 0x46, 0xB8, 0xC7, 255] {
            let mut call = good(check, numbers);
            call.packets[PACKET * packet] = byte;
            refused(
                check,
                format!("packet {packet} begins with {byte:02X}"),
                &call,
                8,
            )?;
        }
    }
    Ok(())
}

/// Every choice of the five faults at once: the first in the order 7, 13, 5, 6, 8 is given.
pub fn together(check: &mut Check, numbers: [u8; 4]) -> Checked {
    let (count, carriers) = expected::sizes(numbers);
    for choice in 1..32 {
        let [seven, thirteen, five, six, eight] = [1, 2, 4, 8, 16].map(|fault| choice & fault != 0);
        let mut call = good(check, numbers);
        if seven {
            call.record = records::any_bad(&mut check.random, Kind::Coding, numbers).record;
        }
        if thirteen {
            call.record.name_unused();
        }
        if eight {
            let packet = check.random.below(count as u64) as usize;
            call.packets[PACKET * packet] = 0x74;
        }
        if five {
            call.packets.push(0x47);
        }
        if six {
            call.carriers = carriers - 1;
        }
        let faults = [(seven, 7), (thirteen, 13), (five, 5), (six, 6), (eight, 8)];
        let first = faults
            .iter()
            .find(|(present, _)| *present)
            .expect("a fault was chosen")
            .1;
        refused(check, format!("faults {faults:?}"), &call, first)?;
    }
    Ok(())
}

/// A refused call between two frames leaves the first one's record for the second.
fn between_frames(check: &mut Check, numbers: [u8; 4]) -> Checked {
    let mut call = good(check, numbers);
    check.case(format!(
        "settings {numbers:?}, the frame before a refused one"
    ));
    let before = check.code(&call.record, &call.packets, call.carriers)?;
    call.record = before.record;
    call.packets[0] = 0;
    refused(check, "a refused frame between two".to_string(), &call, 8)?;
    call.packets[0] = 0x47;
    check.case(format!(
        "settings {numbers:?}, the frame after a refused one"
    ));
    let after = check.code(&call.record, &call.packets, call.carriers)?;
    check.meant(after.answer, 0)
}

pub fn run(check: &mut Check) -> Checked {
    for numbers in [[1, 2, 1, 1], [1, 4, 4, 1], [2, 6, 5, 2]] {
        bad_records(check, numbers)?;
        unused(check, numbers)?;
        lengths(check, numbers)?;
        sync_bytes(check, numbers)?;
        together(check, numbers)?;
        between_frames(check, numbers)?;
    }
    // the largest layer, where every count is longest
    lengths(check, [3, 6, 5, 13])?;
    sync_bytes(check, [3, 6, 5, 13])?;
    together(check, [3, 6, 5, 13])
}
