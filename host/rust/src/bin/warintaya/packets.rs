//! The packets of an input, in whichever form they stand there, and what is left out of it.

use std::cmp::Ordering;

use warintaya::{Refusal, PACKET, SYNC};

use crate::ahead::Ahead;
use crate::failure::{Failure, Outcome};
use crate::files::Input;
use crate::form::{Form, FORMS, PLAIN, ROW, WIDEST};
use crate::told::counted;

/// How many lost places are told one by one.
const TOLD: u64 = 10;

/// What there is to say about an input.
#[derive(Clone, Default)]
pub struct Notes {
    /// The bytes from a packet to the next, where they are not packets alone.
    wide: Option<usize>,
    losses: u64,
    left_out: u64,
    /// Whether the last packet was cut off.
    pub cut: bool,
    /// Lines that have not been told yet.
    pub lines: Vec<String>,
}

impl Notes {
    /// What is said at the end, behind other words.
    pub fn words(&self) -> String {
        let mut words = String::new();
        if let Some(wide) = self.wide {
            words += &format!("; {wide}-byte packets, of which {PACKET} are taken");
        }
        if self.losses > 0 {
            let times = counted(self.losses, "time");
            let bytes = counted(self.left_out, "byte");
            words += &format!("; lost the sync {times}, {bytes} left out");
        }
        words
    }

    /// The sync was lost at a place, and so many bytes are left out.
    fn lost(&mut self, place: u64, left_out: u64, name: &str) {
        self.losses += 1;
        self.left_out += left_out;
        let bytes = counted(left_out, "byte");
        let line = format!("lost the sync at byte {place} of {name}, {bytes} left out");
        match self.losses.cmp(&TOLD) {
            Ordering::Less => self.lines.push(line),
            Ordering::Equal => self
                .lines
                .push(line + "; further ones are counted and not told"),
            Ordering::Greater => {}
        }
    }

    /// A packet at the end has so many bytes and not all.
    fn cut(&mut self, place: u64, have: usize, name: &str) {
        self.cut = true;
        let have = counted(have as u64, "byte");
        self.lines.push(format!(
            "the last packet, which begins at byte {place} of {name}, has {have} and not {PACKET}: it is left out"
        ));
    }
}

#[derive(Default)]
pub struct Packets {
    /// Whether a lost sync is looked for again.
    resync: bool,
    /// The form, once the beginning has been looked at.
    form: Option<Form>,
    ahead: Ahead,
    /// The bytes to pass over in front of the next packet.
    gap: usize,
    /// How many packets have been taken, and where the first of those taken last begins.
    number: u64,
    first: u64,
    pub notes: Notes,
}

impl Packets {
    pub fn new(resync: bool) -> Packets {
        Packets {
            resync,
            ..Packets::default()
        }
    }

    /// The place in the input behind all that was taken.
    pub fn place(&self) -> u64 {
        self.ahead.place()
    }

    /// The place in the input of the first packet that was filled in last.
    pub fn first(&self) -> u64 {
        self.first
    }

    /// Fills an area with packets and says how many bytes that are: fewer than it has only where the input ends.
    pub fn fill(&mut self, input: &mut Input, area: &mut [u8]) -> Outcome<usize> {
        let form = match self.form {
            Some(form) => form,
            None => self.begin(input)?,
        };
        self.form = Some(form);
        self.notes.wide = Some(form.step).filter(|step| *step != PACKET);
        let mut filled = 0;
        while filled < area.len() {
            if filled == 0 {
                self.first = self.ahead.place() + self.gap as u64;
            }
            filled += self.row(input, form, &mut area[filled..])?;
            if filled < area.len() && !self.next(input)? {
                break;
            }
        }
        Ok(filled)
    }

    /// Looks at the beginning: which form it has. Where nothing is in a row there, the first row is looked for, or it is taken as
    /// plain packets, of which one is wrong.
    fn begin(&mut self, input: &mut Input) -> Outcome<Form> {
        let mut forms = FORMS.into_iter();
        let ahead = self.ahead.look(input, ROW * WIDEST)?;
        let mut found = forms.find(|form| form.fits(ahead));
        if found.is_none() {
            let ahead = self.ahead.look(input, 2 * ROW * WIDEST)?;
            found = FORMS.into_iter().find(|form| form.fits_later(ahead));
        }
        if let Some(form) = found {
            self.gap = form.lead;
            return Ok(form);
        }
        let short = self.ahead.ended() && self.ahead.bytes().first() == Some(&SYNC);
        match self.resync && !short {
            true => Ok(self.search(input)?.unwrap_or(PLAIN)),
            false => Ok(PLAIN),
        }
    }

    /// Takes packets for as long as they begin with 47, and says how many bytes they fill.
    fn row(&mut self, input: &mut Input, form: Form, area: &mut [u8]) -> Outcome<usize> {
        let wanted = area.len() / PACKET;
        let count = self.gap + PACKET + (wanted - 1) * form.step;
        let ahead = self.ahead.look(input, count)?;
        let (mut filled, mut end) = (0, 0);
        let places = (self.gap..).step_by(form.step);
        for (packet, place) in area.chunks_exact_mut(PACKET).zip(places) {
            match ahead.get(place..place + PACKET) {
                Some(found) if found[0] == SYNC => packet.copy_from_slice(found),
                _ => break,
            }
            filled += PACKET;
            end = place + PACKET;
        }
        if filled > 0 {
            self.ahead.take(end);
            self.gap = form.step - PACKET;
            self.number += (filled / PACKET) as u64;
        }
        Ok(filled)
    }

    /// Goes on where no packet could be taken, and says whether there may be more: behind a lost sync, but not at the end.
    fn next(&mut self, input: &mut Input) -> Outcome<bool> {
        let place = self.ahead.place() + self.gap as u64;
        let rest = self.ahead.bytes().get(self.gap..).unwrap_or_default();
        match rest {
            [] => Ok(false),
            [SYNC, ..] => {
                self.notes.cut(place, rest.len(), input.name());
                self.ahead.take(self.gap + rest.len());
                Ok(false)
            }
            [first, ..] if !self.resync => Err(self.wrong(*first, place, input)),
            _ => {
                self.ahead.take(self.gap);
                Ok(self.search(input)?.is_some())
            }
        }
    }

    /// Looks for the next place at which packets begin in a row, and leaves out what stands before it.
    fn search(&mut self, input: &mut Input) -> Outcome<Option<Form>> {
        let begin = self.ahead.place();
        self.gap = 0;
        let found = loop {
            let bytes = self.ahead.look(input, (ROW + 1) * WIDEST)?.len();
            let ended = self.ahead.ended();
            let (until, least) = if ended { (bytes, 1) } else { (WIDEST, ROW) };
            let found = match self.form {
                Some(form) => next_row(self.ahead.bytes(), until, form),
                None => first_row(self.ahead.bytes(), until, least),
            };
            self.ahead.take(found.map_or(until, |(_, place)| place));
            if found.is_some() || ended {
                break found;
            }
        };
        let left_out = self.ahead.place() - begin;
        self.notes.lost(begin, left_out, input.name());
        Ok(found.map(|(form, _)| form))
    }

    /// A packet that does not begin with 47.
    fn wrong(&self, first: u8, place: u64, input: &Input) -> Failure {
        let (number, name) = (self.number, input.name());
        let what = format!(
            "packet {number} begins with {first:02X} and not with 47, at byte {place} of {name}; --resync goes on behind it"
        );
        Failure::at(what, Refusal::Sync)
    }
}

/// The first place before an end at which packets of a known form begin in a row.
fn next_row(ahead: &[u8], until: usize, form: Form) -> Option<(Form, usize)> {
    let place = (0..until).find(|place| form.in_row(&ahead[*place..]));
    place.map(|place| (form, place))
}

/// The same where the form is not known: the one that has the most packets in a row is taken, of several the first.
fn first_row(ahead: &[u8], until: usize, least: usize) -> Option<(Form, usize)> {
    let of_form = |form: Form, count: usize| {
        let fits = |at: &[u8]| form.begun(at) >= count && form.surely(at);
        let place = (0..until).find(|place| fits(&ahead[*place..]));
        place.map(|place| (form, place))
    };
    let mut counts = (least..=ROW).rev();
    counts.find_map(|count| FORMS.into_iter().find_map(|form| of_form(form, count)))
}
