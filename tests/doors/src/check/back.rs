//! The door of going back.

use second::receiving::SLOT;

use super::{Check, Checked};
use crate::expected;
use crate::lent::Lent;
use crate::records::Record;

/// What a call that goes back has left.
pub struct Back {
    pub answer: u8,
    pub record: Record,
    /// The slots that are given, and no others.
    pub slots: Vec<u8>,
}

/// What stands on either side of the number of slots given.
const GUARD: u64 = 0xA5C3_96E7_B4D2_8F01;

impl Check {
    /// Goes back into so many bytes of slots.
    pub fn back(&mut self, record: &Record, carriers: &[u8], slots: usize) -> Checked<Back> {
        let mut slots_after = self.random.bytes(slots);
        let mut area = self.lend(&record.area);
        let (mut read, mut written) = (self.lend(carriers), self.lend(&slots_after));
        // the old number is junk in all its eight bytes
        let mut given = [GUARD, self.random.below(u64::MAX) | 1 << 63, GUARD];
        let answer = unsafe {
            (self.doors.back)(
                area.pointer(),
                area.len(),
                record.layer,
                read.pointer(),
                read.len(),
                written.pointer(),
                written.len(),
                &mut given[1],
            )
        };
        let mut after = record.clone();
        let (should, number) = expected::back(&mut after, carriers, &mut slots_after);
        self.compare_given(answer == should, given, number)?;
        let areas: [(&str, &Lent, &[u8]); 3] = [
            ("record", &area, &after.area),
            ("carriers", &read, carriers),
            ("slots", &written, &slots_after),
        ];
        self.compare("back", Some(record.layer), [answer, should], &areas)?;
        self.others_alone(record, &after)?;
        slots_after.truncate(SLOT * number as usize);
        for slot in slots_after.chunks(SLOT) {
            self.counts.slot(slot[0]);
        }
        Ok(Back {
            answer,
            record: after,
            slots: slots_after,
        })
    }

    /// Compares how many slots are given, where the answers agree, and what is around that number.
    fn compare_given(&mut self, agreed: bool, given: [u64; 3], should: u64) -> Checked {
        if given[0] != GUARD || given[2] != GUARD {
            return Err(format!(
                "back, {}: what is around the number given",
                self.case
            ));
        }
        if agreed && given[1] != should {
            return Err(format!(
                "back, {}: the number given is {} and should be {should}",
                self.case, given[1]
            ));
        }
        self.counts.bytes(8);
        Ok(())
    }

    /// How many slots a case is meant to be given.
    pub fn meant_given(&self, given: usize, number: usize) -> Checked {
        if given == number {
            return Ok(());
        }
        Err(format!(
            "{}: both give {given} slots, and the case is meant for {number}",
            self.case
        ))
    }
}
