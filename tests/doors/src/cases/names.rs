//! Every name that a call may give its layer: 13 for one that is unused or that no layer has, before all that the layer itself
//! would refuse, and behind 7.

use crate::check::{Check, Checked};
use crate::records::{Kind, Layers, Record, NAMES};

/// A record of layers of these settings, of which three zeros are an unused one.
fn record(check: &mut Check, kind: Kind, layers: Layers) -> Record {
    let mut record = Record::empty(kind, 1);
    for (name, [v, rate, segments]) in NAMES.into_iter().zip(layers) {
        if segments != 0 {
            let state = kind.random(&mut check.random, [1, v, rate, segments]);
            record.put(name, &state);
        }
    }
    record
}

/// Every door on a call that lends nothing but the record. What it refuses first is a length, unless the record or the name is
/// refused with this number.
fn lending_nothing(check: &mut Check, records: [&Record; 2], name: u8, number: u8) -> Checked {
    let [coding, receiving] = records.map(|record| record.naming(name));
    let [words, carriers] = if number == 0 { [5, 6] } else { [number; 2] };
    check.case("nothing lent");
    let moved = check.disperse_interleave(&coding, usize::MAX, &[], 0)?;
    check.meant(moved.answer, words)?;
    let moved = check.code(&coding, &[], 0)?;
    check.meant(moved.answer, words)?;
    let (answer, _, _) = check.replace(&coding, &[], usize::MAX, &[], &[])?;
    check.meant(answer, carriers)?;
    let back = check.back(&receiving, &[], 0)?;
    check.meant(back.answer, carriers)
}

const LAYERS: Layers = [[2, 1, 1], [6, 5, 2], [4, 3, 1]];

/// All names of a byte, with every choice of layers that are used; and with a record of no legal mode, where each name is answered
/// with 7.
pub fn run(check: &mut Check) -> Checked {
    for choice in 0..1 << NAMES.len() {
        let used = |name: u8| name < 3 && choice >> name & 1 == 1;
        let layers = NAMES.map(|name| LAYERS[usize::from(name)].map(|n| u8::from(used(name)) * n));
        let mut coding = record(check, Kind::Coding, layers);
        let mut receiving = record(check, Kind::Receiving, layers);
        for name in 0..=255 {
            let number = if used(name) { 0 } else { 13 };
            lending_nothing(check, [&coding, &receiving], name, number)?;
        }
        (coding.area[0], receiving.area[0]) = (0, 4);
        for name in 0..=255 {
            lending_nothing(check, [&coding, &receiving], name, 7)?;
        }
    }
    Ok(())
}
