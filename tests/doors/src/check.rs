//! One call of a door: made through the door and by the second program, and the two compared.

mod back;
mod counts;
mod replace;

use second::random::Random;

use crate::doors::Doors;
use crate::expected;
use crate::lent::Lent;
use crate::records::{Kind, Layers, Record, NAMES};
use counts::Counts;

/// Nothing, or one line that says what differs.
pub type Checked<T = ()> = Result<T, String>;

/// What a door that moves a layer on is called, and its other areas: the one read, the one written.
struct Mover {
    name: &'static str,
    areas: [&'static str; 2],
}

/// The doors that are held to the second program, and how many calls have been compared.
pub struct Check {
    doors: Doors,
    /// For the old contents of areas that are written.
    pub random: Random,
    /// The layer that a record was made for last.
    turn: u8,
    /// What is being tried, for the line that says what differs.
    case: String,
    pub counts: Counts,
}

/// What a call of a door that moves a layer on has left.
pub struct Moved {
    pub answer: u8,
    pub record: Record,
    /// The area that is written.
    pub written: Vec<u8>,
}

impl Check {
    pub fn new(doors: Doors, seed: u64) -> Self {
        Check {
            doors,
            random: Random::new(seed),
            turn: 2,
            case: String::new(),
            counts: Counts::default(),
        }
    }

    /// Names what is tried next.
    pub fn case(&mut self, case: impl Into<String>) {
        self.case = case.into();
    }

    /// A, B and C in turn.
    pub fn next_layer(&mut self) -> u8 {
        self.turn = (self.turn + 1) % 3;
        self.turn
    }

    /// The state in a layer of a record, A, B and C in turn, beside others.
    pub fn record(&mut self, kind: Kind, state: &[u8]) -> Record {
        let layer = self.next_layer();
        Record::around(&mut self.random, kind, layer, state)
    }

    /// An area to lend, at any alignment.
    fn lend(&mut self, content: &[u8]) -> Lent {
        Lent::new(content, self.random.below(16) as usize)
    }

    /// Compares the answers and the areas, and counts the call; `layer` is the one that it names, if it names one.
    fn compare(
        &mut self,
        door: &'static str,
        layer: Option<u8>,
        [answer, should]: [u8; 2],
        areas: &[(&str, &Lent, &[u8])],
    ) -> Checked {
        let named = |what: String| {
            let layer = layer.map_or(String::new(), |layer| format!(" layer {layer},"));
            format!("{door},{layer} {}: {what}", self.case)
        };
        if answer != should {
            return Err(named(format!(
                "the answer is {answer} and should be {should}"
            )));
        }
        for (name, lent, expected) in areas {
            lent.compare(name, expected).map_err(named)?;
            self.counts.bytes(lent.len());
        }
        self.counts.call(door, layer, answer);
        Ok(())
    }

    /// A call that names a layer alters no byte of the others, nor the record's mode.
    fn others_alone(&self, before: &Record, after: &Record) -> Checked {
        if before.area.len() != before.kind.length() {
            return self.same("an area that is no record", &after.area, &before.area);
        }
        self.same("the mode", &after.area[..1], &before.area[..1])?;
        let mut others = NAMES.into_iter().filter(|&name| name != before.layer);
        others.try_for_each(|name| self.same("another layer", after.at(name), before.at(name)))
    }

    /// P and C.
    pub fn sizes(&mut self, numbers: [u8; 4]) -> Checked {
        let [mode, v, rate, segments] = numbers;
        let (packets, carriers) = expected::sizes(numbers);
        for (door, call, should) in [
            ("packets", self.doors.packets, packets),
            ("carriers", self.doors.carriers, carriers),
        ] {
            let size = unsafe { call(mode, v, rate, segments) };
            if size != should {
                return Err(format!(
                    "{door}, settings {numbers:?}: the size is {size} and should be {should}"
                ));
            }
            self.counts.call(door, None, 0);
        }
        Ok(())
    }

    /// Starts a record of this kind in an area with these old contents.
    pub fn start(&mut self, kind: Kind, mode: u8, layers: Layers, area: &[u8]) -> Checked<u8> {
        let (door, call) = match kind {
            Kind::Coding => ("start", self.doors.start),
            Kind::Receiving => ("receive_start", self.doors.receive_start),
        };
        let nine = layers.concat();
        let (mut settings, mut record) = (self.lend(&nine), self.lend(area));
        let answer = unsafe { call(mode, settings.pointer(), record.pointer(), record.len()) };
        let mut after = area.to_vec();
        let should = expected::start(kind, mode, layers, &mut after);
        let areas: [(&str, &Lent, &[u8]); 2] =
            [("layers", &settings, &nine), ("record", &record, &after)];
        self.compare(door, None, [answer, should], &areas)?;
        Ok(answer)
    }

    /// A door that moves a layer on, reads an area and writes another. `call` is given the record's area, the one that is read and
    /// the one that is written, and `expected` does the same to the record and to the old contents.
    fn moved(
        &mut self,
        door: Mover,
        record: &Record,
        from: &[u8],
        out: usize,
        call: impl FnOnce([&mut Lent; 3]) -> u8,
        expected: impl FnOnce(&mut Record, &mut [u8]) -> u8,
    ) -> Checked<Moved> {
        let mut into_after = self.random.bytes(out);
        let (mut area, mut read, mut written) = (
            self.lend(&record.area),
            self.lend(from),
            self.lend(&into_after),
        );
        let answer = call([&mut area, &mut read, &mut written]);
        let mut after = record.clone();
        let should = expected(&mut after, &mut into_after);
        let [read_name, written_name] = door.areas;
        let areas: [(&str, &Lent, &[u8]); 3] = [
            ("record", &area, &after.area),
            (read_name, &read, from),
            (written_name, &written, &into_after),
        ];
        self.compare(door.name, Some(record.layer), [answer, should], &areas)?;
        self.others_alone(record, &after)?;
        Ok(Moved {
            answer,
            record: after,
            written: into_after,
        })
    }

    pub fn disperse_interleave(
        &mut self,
        record: &Record,
        place: usize,
        word: &[u8],
        out: usize,
    ) -> Checked<Moved> {
        let door = Mover {
            name: "disperse_interleave",
            areas: ["word", "word that comes out"],
        };
        let (call, layer) = (self.doors.disperse_interleave, record.layer);
        let call = |[area, read, written]: [&mut Lent; 3]| unsafe {
            call(
                area.pointer(),
                area.len(),
                layer,
                place,
                read.pointer(),
                read.len(),
                written.pointer(),
                written.len(),
            )
        };
        self.moved(door, record, word, out, call, |after, out| {
            expected::disperse_interleave(after, place, word, out)
        })
    }

    pub fn code(&mut self, record: &Record, packets: &[u8], carriers: usize) -> Checked<Moved> {
        let door = Mover {
            name: "code",
            areas: ["packets", "carriers"],
        };
        let (call, layer) = (self.doors.code, record.layer);
        let call = |[area, read, written]: [&mut Lent; 3]| unsafe {
            call(
                area.pointer(),
                area.len(),
                layer,
                read.pointer(),
                read.len(),
                written.pointer(),
                written.len(),
            )
        };
        self.moved(door, record, packets, carriers, call, |after, out| {
            expected::code(after, packets, out)
        })
    }

    /// Both programs agree, and this is what they have to agree on.
    pub fn same(&self, what: &str, found: &[u8], expected: &[u8]) -> Checked {
        match found.iter().zip(expected).position(|(a, b)| a != b) {
            None if found.len() == expected.len() => Ok(()),
            place => Err(format!("{}: {what} differs at {place:?}", self.case)),
        }
    }

    /// The number that a case is meant to have: it holds the second program to the paper's order of refusals.
    pub fn meant(&self, answer: u8, number: u8) -> Checked {
        if answer == number {
            return Ok(());
        }
        Err(format!(
            "{}: both answer {answer}, and the case is meant for {number}",
            self.case
        ))
    }
}
