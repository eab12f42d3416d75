//! What the programs `coding` and `receiving` print: a settings line, then one frame a line.

use crate::entries::code;
use crate::frame::PACKET;
use crate::frames::settings;
use crate::layer::{Numbers, Sizes};
use crate::lines::{bytes, digits, lines};
use crate::receiving::{self, back, SLOT};
use crate::state;

/// What is printed for a line of wrong form or length, and for a layer that is too large.
const OTHER: &str = "FF\n";

/// What a program does with the frames of a layer, one after the other.
trait Frames {
    /// Before the first frame.
    fn start(numbers: Numbers, sizes: Sizes) -> Self;

    /// The bytes of a frame line.
    fn length(&self) -> usize;

    /// The refusal of a frame, and what is given on 0.
    fn frame(&mut self, bytes: &[u8]) -> (u8, Vec<u8>);
}

/// Packets come in, carriers go out.
struct Coding {
    state: state::State,
    sizes: Sizes,
}

impl Frames for Coding {
    fn start(numbers: Numbers, sizes: Sizes) -> Self {
        let (_, state) = state::State::start(numbers);
        Coding { state, sizes }
    }

    fn length(&self) -> usize {
        PACKET * self.sizes.packets as usize
    }

    fn frame(&mut self, packets: &[u8]) -> (u8, Vec<u8>) {
        let mut carriers = vec![0; self.sizes.carriers as usize];
        let (number, after) = code(&self.state, packets, &mut carriers);
        self.state = after;
        (number, carriers)
    }
}

/// Carriers come in, the slots given go out.
struct Receiving {
    state: receiving::State,
    sizes: Sizes,
}

impl Frames for Receiving {
    fn start(numbers: Numbers, sizes: Sizes) -> Self {
        let (_, state) = receiving::State::start(numbers);
        Receiving { state, sizes }
    }

    fn length(&self) -> usize {
        self.sizes.carriers as usize
    }

    fn frame(&mut self, carriers: &[u8]) -> (u8, Vec<u8>) {
        let mut slots = vec![0; SLOT * self.sizes.packets as usize];
        let (number, given, after) = back(&self.state, carriers, &mut slots);
        self.state = after;
        slots.truncate(SLOT * given);
        (number, slots)
    }
}

/// The frames of the layer that a settings line starts, or the line that is printed instead.
fn started<F: Frames>(line: &[u8]) -> Result<F, String> {
    let numbers = settings(line).ok_or(OTHER)?;
    let sizes = numbers
        .sizes()
        .map_err(|refusal| format!("{refusal:02X}\n"))?;
    if numbers.segments << (numbers.mode - 1) > 2 {
        return Err(OTHER.to_string());
    }
    Ok(F::start(numbers, sizes))
}

/// What is printed for a text. An accepted settings line prints nothing; a line that ends the run is the last.
fn answers<F: Frames>(text: &[u8]) -> String {
    let mut lines = lines(text).into_iter();
    let first = match lines.next() {
        Some(first) => first,
        None => return String::new(),
    };
    let mut frames: F = match started(first) {
        Ok(frames) => frames,
        Err(printed) => return printed,
    };
    let mut out = String::new();
    for line in lines {
        match bytes(line) {
            Some(frame) if frame.len() == frames.length() => {
                let (number, given) = frames.frame(&frame);
                out += &digits(&[number]);
                if number == 0 {
                    out += &digits(&given);
                }
                out.push('\n');
            }
            _ => return out + OTHER,
        }
    }
    out
}

/// What `coding` prints.
pub fn coding(text: &[u8]) -> Vec<u8> {
    answers::<Coding>(text).into_bytes()
}

/// What `receiving` prints.
pub fn receiving(text: &[u8]) -> Vec<u8> {
    answers::<Receiving>(text).into_bytes()
}
