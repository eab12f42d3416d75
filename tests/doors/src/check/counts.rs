//! How much was compared, and whether that is enough.

use std::collections::BTreeMap;

use super::Checked;

/// The fewest of each that a whole run has to compare.
const FRAMES_CODED: usize = 2_000;
const PACKETS_REPLACED: usize = 5_000;
const FRAMES_DISTURBED: usize = 500;
const CALLS_REFUSED: usize = 50_000;

/// The numbers that calls are refused with.
const REFUSALS: [u8; 12] = [1, 2, 3, 4, 5, 6, 7, 8, 9, 10, 12, 13];

#[derive(Default)]
pub struct Counts {
    /// The calls, by door and answer.
    calls: BTreeMap<&'static str, BTreeMap<u8, usize>>,
    /// The calls that were done in each layer, by door.
    in_layers: BTreeMap<&'static str, [usize; 3]>,
    /// The bytes of the areas lent.
    bytes: usize,
    /// The slots, by their first byte.
    slots: BTreeMap<u8, usize>,
    /// The frames that went back with wrong bits.
    disturbed: usize,
}

/// Counts as they are printed: what was counted, and how often.
fn listed(counts: &BTreeMap<u8, usize>) -> String {
    let counts: Vec<String> = counts
        .iter()
        .map(|(what, count)| format!("{what}: {count}"))
        .collect();
    counts.join(", ")
}

impl Counts {
    pub fn call(&mut self, door: &'static str, layer: Option<u8>, answer: u8) {
        let answers = self.calls.entry(door).or_default();
        *answers.entry(answer).or_default() += 1;
        if let (Some(layer), 0) = (layer, answer) {
            self.in_layers.entry(door).or_default()[usize::from(layer)] += 1;
        }
    }

    pub fn bytes(&mut self, count: usize) {
        self.bytes += count;
    }

    pub fn slot(&mut self, first: u8) {
        *self.slots.entry(first).or_default() += 1;
    }

    pub fn disturbed(&mut self) {
        self.disturbed += 1;
    }

    /// How many calls of a door were done.
    fn done(&self, door: &str) -> usize {
        let answers = self.calls.get(door);
        let done = answers.and_then(|answers| answers.get(&0));
        done.copied().unwrap_or(0)
    }

    /// How many calls of a door were done in A, B and C.
    fn in_layers(&self, door: &str) -> [usize; 3] {
        self.in_layers.get(door).copied().unwrap_or_default()
    }

    /// How many calls of a door were done, and in which layers.
    fn told(&self, door: &str) -> String {
        let [a, b, c] = self.in_layers(door);
        format!("{} (A {a}, B {b}, C {c})", self.done(door))
    }

    /// How many calls were refused, by number.
    fn refused(&self) -> BTreeMap<u8, usize> {
        let mut refused = BTreeMap::new();
        for answers in self.calls.values() {
            for (&number, &count) in answers.iter().filter(|(&number, _)| number != 0) {
                *refused.entry(number).or_default() += count;
            }
        }
        refused
    }

    /// A line for each thing counted.
    pub fn lines(&self) -> Vec<String> {
        let refused = self.refused();
        vec![
            format!("frames coded: {}", self.told("code")),
            format!("packets replaced: {}", self.told("replace")),
            format!(
                "frames received: {}, with wrong bits {}",
                self.told("back"),
                self.disturbed
            ),
            format!("slots by their first byte: {}", listed(&self.slots)),
            format!(
                "words dispersed and interleaved: {}",
                self.told("disperse_interleave")
            ),
            format!(
                "calls refused: {}, by number {}",
                refused.values().sum::<usize>(),
                listed(&refused)
            ),
            format!("lent bytes compared: {}", self.bytes),
        ]
    }

    /// A whole run has compared enough, in each layer too, and seen every number that a slot may begin with and every refusal.
    pub fn enough(&self) -> Checked {
        let refused = self.refused();
        for (what, count, least) in [
            ("frames coded", self.done("code"), FRAMES_CODED),
            ("packets replaced", self.done("replace"), PACKETS_REPLACED),
            (
                "frames received with wrong bits",
                self.disturbed,
                FRAMES_DISTURBED,
            ),
            ("calls refused", refused.values().sum(), CALLS_REFUSED),
        ] {
            if count < least {
                return Err(format!("only {count} {what}, and {least} are meant"));
            }
        }
        let mut numbers = REFUSALS.iter();
        if let Some(number) = numbers.find(|number| !refused.contains_key(number)) {
            return Err(format!("no call was refused with {number}"));
        }
        self.every_layer_seen()?;
        self.every_slot_seen()
    }

    /// Each door was called in each layer, not in one much more often than in another.
    fn every_layer_seen(&self) -> Checked {
        for door in ["code", "replace", "back", "disperse_interleave"] {
            let in_layers = self.in_layers(door);
            if in_layers.iter().any(|count| 5 * count < self.done(door)) {
                return Err(format!("{door} was done in A, B and C {in_layers:?} times"));
            }
        }
        Ok(())
    }

    /// Every number that a slot may begin with was seen.
    pub fn every_slot_seen(&self) -> Checked {
        match (0..=8)
            .chain([254, 255])
            .find(|first| !self.slots.contains_key(first))
        {
            Some(first) => Err(format!("no slot began with {first}")),
            None => Ok(()),
        }
    }
}
