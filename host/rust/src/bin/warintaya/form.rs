//! The forms in which packets stand in an input: alone, with somebody's parity behind them, or with a time stamp in front.

use warintaya::{PACKET, SYNC};

/// How many packets in a row have to begin with 47 where a form, or a lost place, is looked for.
pub const ROW: usize = 5;

/// The most bytes from a packet to the next.
pub const WIDEST: usize = 204;

/// How far it is from a packet to the next, and what stands in front of the first.
#[derive(Clone, Copy, Debug, PartialEq, Eq)]
pub struct Form {
    pub step: usize,
    pub lead: usize,
}

/// Packets alone.
pub const PLAIN: Form = Form {
    step: PACKET,
    lead: 0,
};

/// The forms that are known: alone, with 16 bytes of parity, with four of a time stamp. The first that fits is taken.
pub const FORMS: [Form; 3] = [
    PLAIN,
    Form {
        step: WIDEST,
        lead: 0,
    },
    Form { step: 192, lead: 4 },
];

impl Form {
    /// The packets of a row whose first bytes are there.
    pub fn begun(self, ahead: &[u8]) -> usize {
        ahead.iter().step_by(self.step).take(ROW).len()
    }

    /// Whether the input ends behind a whole packet, with what belongs to it.
    fn whole(self, ahead: &[u8]) -> bool {
        (ahead.len() + self.lead) % self.step == 0
    }

    /// Whether packets in a row begin here, as many as are looked for or all that there are before the end of the input.
    pub fn in_row(self, ahead: &[u8]) -> bool {
        let mut first = ahead.iter().step_by(self.step).take(ROW);
        let enough = self.begun(ahead) > 1 || self.whole(ahead);
        enough && ahead.len() >= PACKET && first.all(|byte| *byte == SYNC)
    }

    /// The same where the form is not known yet: a short input is plain packets, unless another form fits it exactly.
    pub fn surely(self, ahead: &[u8]) -> bool {
        let begun = self.begun(ahead);
        let sure = self == PLAIN || begun == ROW || begun > 1 && self.whole(ahead);
        sure && self.in_row(ahead)
    }

    /// Whether it is that of a whole input, from its beginning on.
    pub fn fits(self, input: &[u8]) -> bool {
        input.get(self.lead..).map_or(false, |at| self.surely(at))
    }

    /// Whether it is that of an input whose first packet begins with 47, and some of the next do not.
    pub fn fits_later(self, input: &[u8]) -> bool {
        let first = input.get(self.lead) == Some(&SYNC);
        let later = (1..=ROW).map(|number| self.lead + number * self.step);
        let mut rows = later.filter_map(|place| input.get(place..));
        first && rows.any(|at| self.surely(at))
    }
}

#[cfg(test)]
mod tests {
    use super::*;

    /// So many packets of a form, whose other bytes are all the same.
    fn packets(form: Form, count: usize, other: u8) -> Vec<u8> {
        let mut bytes = vec![other; form.step * count];
        let begins = bytes.iter_mut().skip(form.lead).step_by(form.step);
        begins.for_each(|byte| *byte = SYNC);
        bytes
    }

    fn found(bytes: &[u8]) -> Option<Form> {
        FORMS.into_iter().find(|form| form.fits(bytes))
    }

    #[test]
    fn forms_are_known_again() {
        for form in FORMS {
            for count in 2..8 {
                assert_eq!(found(&packets(form, count, 0)), Some(form), "{count}");
            }
        }
    }

    /// Plain packets are plain packets, whatever stands in them.
    #[test]
    fn plain_packets_are_never_another_form() {
        for count in 1..30 {
            let bytes = packets(PLAIN, count, SYNC);
            for length in PACKET..=bytes.len() {
                assert_eq!(found(&bytes[..length]), Some(PLAIN), "{length}");
            }
        }
    }

    /// A short input is another form only where it is whole packets of that form, and more than one.
    #[test]
    fn short_inputs_are_plain_unless_surely_not() {
        for form in [FORMS[1], FORMS[2]] {
            assert_eq!(found(&packets(form, 1, 0)), None);
            let two = packets(form, 2, 0);
            assert_eq!(found(&two[..two.len() - 1]), None);
            assert_eq!(found(&[&two[..], &[0]].concat()), None);
        }
    }
}
