//! The door of late replacement.

use super::{Check, Checked};
use crate::expected;
use crate::lent::Lent;
use crate::records::Record;

impl Check {
    /// The answer, and the record and the carriers after the call.
    pub fn replace(
        &mut self,
        record: &Record,
        carriers: &[u8],
        number: usize,
        old: &[u8],
        new: &[u8],
    ) -> Checked<(u8, Record, Vec<u8>)> {
        let (mut area, mut lent) = (self.lend(&record.area), self.lend(carriers));
        let (mut one, mut other) = (self.lend(old), self.lend(new));
        let answer = unsafe {
            (self.doors.replace)(
                area.pointer(),
                area.len(),
                record.layer,
                lent.pointer(),
                lent.len(),
                number,
                one.pointer(),
                one.len(),
                other.pointer(),
                other.len(),
            )
        };
        let (mut after, mut replaced) = (record.clone(), carriers.to_vec());
        let should = expected::replace(&mut after, &mut replaced, number, old, new);
        let areas: [(&str, &Lent, &[u8]); 4] = [
            ("record", &area, &after.area),
            ("carriers", &lent, &replaced),
            ("old packet", &one, old),
            ("new packet", &other, new),
        ];
        self.compare("replace", Some(record.layer), [answer, should], &areas)?;
        self.others_alone(record, &after)?;
        Ok((answer, after, replaced))
    }
}
