//! Frames that go back: undisturbed, where the packets sent have to come out, and disturbed in every way.

use second::state::State;

use crate::cases::link::{Link, Way};
use crate::cases::settings;
use crate::check::{Check, Checked};
use crate::receiving_states;
use crate::records::Kind;
use crate::states;

/// Frames in a row from a sender and a receiver at their start.
fn from_start(check: &mut Check, numbers: [u8; 4], ways: &[Way]) -> Checked {
    let mut link = Link::new(numbers);
    let mut record = check.record(Kind::Receiving, &receiving_states::fresh(numbers));
    let mut frames = ways.iter();
    frames.try_for_each(|&way| link.frame(check, &mut record, "from the start", way))
}

/// Between half a per cent and 12 of the bits wrong, in each frame another amount: the lower ones more often, where the numbers
/// of corrected bytes lie apart.
fn wrong(check: &mut Check, frames: usize) -> Vec<Way> {
    let mut amount = |most| Way::Wrong(5 + check.random.below(most));
    (0..frames)
        .map(|turn| amount(if turn % 2 == 0 { 30 } else { 116 }))
        .collect()
}

/// A receiver that has taken frames that no coder sent.
fn from_states(check: &mut Check, numbers: [u8; 4]) -> Checked {
    let random = receiving_states::random(&mut check.random, numbers);
    for (what, state) in [
        ("from a random state", random),
        ("from the largest state", receiving_states::largest(numbers)),
    ] {
        let mut link = Link::new(numbers);
        let mut record = check.record(Kind::Receiving, &state);
        link.frame(check, &mut record, what, Way::Wrong(10))?;
        link.frame(check, &mut record, what, Way::Bursts(3, 400))?;
    }
    Ok(())
}

/// A receiver that starts when the coder has long been running.
fn joining(check: &mut Check, numbers: [u8; 4]) -> Checked {
    let mut link = Link::new(numbers);
    let state = states::random(&mut check.random, numbers);
    link.coding = State::from_bytes(&state).expect("a state of the right length");
    let mut record = check.record(Kind::Receiving, &receiving_states::fresh(numbers));
    link.frame(check, &mut record, "joining a coder", Way::Wrong(0))?;
    link.frame(check, &mut record, "joining a coder", Way::Wrong(4))
}

/// Everything, for a small layer.
fn all_ways(check: &mut Check, numbers: [u8; 4]) -> Checked {
    from_start(check, numbers, &[Way::Undisturbed; 3])?;
    let ways = wrong(check, 3);
    from_start(check, numbers, &ways)?;
    from_start(check, numbers, &[Way::Bursts(12, 60), Way::Bursts(2, 2000)])?;
    from_start(check, numbers, &[Way::Complemented, Way::Undisturbed])?;
    from_start(check, numbers, &[Way::Random, Way::Random])?;
    from_start(check, numbers, &[Way::Headless(0), Way::Headless(12)])?;
    from_states(check, numbers)?;
    joining(check, numbers)
}

/// Every number of segments, several frames in a row: the packets sent have to come out. The largest layer of all is the last.
fn segments(check: &mut Check) -> Checked {
    for segments in 2..=13 {
        let (v, rate) = (2 + segments % 3 * 2, 1 + segments % 5);
        from_start(check, [1, v, rate, segments], &[Way::Undisturbed; 3])?;
    }
    from_start(check, [2, 4, 3, 13], &[Way::Undisturbed; 2])?;
    from_start(check, [3, 2, 4, 7], &[Way::Undisturbed; 2])?;
    from_start(check, [3, 6, 5, 13], &[Way::Undisturbed; 2])
}

pub fn run(check: &mut Check) -> Checked {
    for numbers in settings(1) {
        if numbers[0] == 1 {
            all_ways(check, numbers)?;
        } else {
            from_start(check, numbers, &[Way::Undisturbed; 2])?;
            let ways = wrong(check, 2);
            from_start(check, numbers, &ways)?;
        }
    }
    from_start(check, [1, 6, 5, 13], &[Way::Wrong(6)])?;
    segments(check)?;
    check.counts.every_slot_seen()
}
