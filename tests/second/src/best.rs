//! The best message of received pairs: what the program `cases_best_message` reads and should print.
//!
//! Few bits are answered by trying every message. More of them go from the end to the start, each register's fewest
//! disagreements in a number of its own; `tests/second/tests/best.rs` holds the two ways to one another.

use crate::machines::ConvolutionalCoder;
use crate::random::Random;
use crate::table::Table;

/// The most pairs that a call has room for here, which is more than it may have.
const PAIRS: usize = 1730;

/// The bytes of one call: how many pairs (2), the register, how long the message (2) and the table (3) are, and the pairs.
const RECORD: usize = 8 + PAIRS;

/// What stands in the areas before the call.
const BEFORE: u8 = 0xEE;

/// The digits of a pair: 0 or 1, or 2 where no bit was received.
fn digits(pair: u8) -> (u8, u8) {
    (pair / 3, pair % 3)
}

/// In how many received bits a pair differs from what was sent.
fn disagreements(pair: u8, sent: (u8, u8)) -> u32 {
    let received = digits(pair);
    let differs = |digit: u8, bit: u8| u32::from(digit != 2 && digit != bit);
    differs(received.0, sent.0) + differs(received.1, sent.1)
}

/// The best message by trying each: they come in the order in which the first bit counts most, and the first of the best
/// stays.
pub fn best_of_all(pairs: &[u8], register: u8) -> Vec<u8> {
    let mut best = Vec::new();
    let mut fewest = u32::MAX;
    for number in 0..1u32 << pairs.len() {
        let message: Vec<u8> = (0..pairs.len())
            .map(|place| (number >> (pairs.len() - 1 - place) & 1) as u8)
            .collect();
        let mut coder = ConvolutionalCoder::new(register);
        let cost = pairs
            .iter()
            .zip(&message)
            .map(|(&pair, &bit)| disagreements(pair, coder.bit(bit)))
            .sum();
        if cost < fewest {
            fewest = cost;
            best = message;
        }
    }
    best
}

/// What is sent for a bit, and the register after it.
type Step = ((u8, u8), usize);

/// For each register the steps of the bits 0 and 1.
static STEPS: Table<Vec<[Step; 2]>> = Table::new(|| {
    (0..64)
        .map(|register| {
            [0, 1].map(|bit| {
                let mut coder = ConvolutionalCoder::new(register);
                (coder.bit(bit), usize::from(coder.register()))
            })
        })
        .collect()
});

/// For each register the fewest disagreements by way of the bit 0, and by way of the bit 1.
type Row = [[u32; 2]; 64];

/// The rows from each pair on. Behind the last pair there are no disagreements.
fn ways(pairs: &[u8]) -> Vec<Row> {
    let steps = &*STEPS;
    let mut rows = vec![[[0; 2]; 64]; pairs.len() + 1];
    for (number, &pair) in pairs.iter().enumerate().rev() {
        let costs = [0, 1].map(|x| [0, 1].map(|y| disagreements(pair, (x, y))));
        let behind = rows[number + 1].map(|[zero, one]| zero.min(one));
        for (row, ways) in rows[number].iter_mut().zip(steps) {
            *row = ways.map(|((x, y), next)| costs[usize::from(x)][usize::from(y)] + behind[next]);
        }
    }
    rows
}

/// The best message from the end to the start.
pub fn best(pairs: &[u8], register: u8) -> Vec<u8> {
    let steps = &*STEPS;
    let mut register = usize::from(register);
    ways(pairs)
        .iter()
        .take(pairs.len())
        .map(|row| {
            let [zero, one] = row[register];
            let bit = u8::from(one < zero);
            register = steps[register][usize::from(bit)].1;
            bit
        })
        .collect()
}

/// The table: twice the fewest disagreements and the better bit, less what the rows are lowered by, which is that register 0
/// has 12 of them left where it has more, each 32 pairs from the end.
fn table(pairs: &[u8]) -> Vec<u8> {
    let rows = ways(pairs);
    let mut lowered = 0;
    let mut out = vec![0; 64 * rows.len()];
    for (number, row) in rows.iter().enumerate().rev() {
        let from_end = pairs.len() - number;
        if from_end > 0 && from_end % 32 == 0 {
            lowered = lowered.max(row[0][0].min(row[0][1]).saturating_sub(12));
        }
        for (register, &[zero, one]) in row.iter().enumerate() {
            let entry = (2 * zero).min(2 * one + u32::from(from_end > 0));
            out[64 * number + register] =
                u8::try_from(entry - 2 * lowered).expect("an entry is a byte");
        }
    }
    out
}

/// A number for all bytes of a list, in two bytes.
fn digest(bytes: &[u8]) -> [u8; 2] {
    let sum = bytes.iter().fold(0, |sum: u32, &byte| {
        (sum * 257 + u32::from(byte) + 1) % 65521
    });
    [(sum / 256) as u8, (sum % 256) as u8]
}

/// A number given by its bytes, the highest first.
fn number(bytes: &[u8]) -> usize {
    bytes
        .iter()
        .fold(0, |number, &byte| number * 256 + usize::from(byte))
}

/// What the program prints for the calls: 1 or 0, the table's number, and the area of the message.
pub fn answers(calls: &[u8]) -> Vec<u8> {
    let mut out = Vec::new();
    for call in calls.chunks_exact(RECORD) {
        let pairs = &call[8..8 + number(&call[0..2])];
        let register = call[2];
        let bits = number(&call[3..5]);
        let mut area = vec![BEFORE; number(&call[5..8])];
        let mut message = vec![BEFORE; PAIRS];
        let taken = pairs.len() <= 1728
            && pairs.iter().all(|&pair| pair < 9)
            && register < 64
            && bits == pairs.len()
            && area.len() >= 64 * pairs.len() + 64;
        if taken {
            let found = if pairs.len() <= 12 {
                best_of_all(pairs, register)
            } else {
                best(pairs, register)
            };
            message[..bits].copy_from_slice(&found);
            let rows = table(pairs);
            area[..rows.len()].copy_from_slice(&rows);
        }
        out.push(u8::from(taken));
        out.extend(digest(&area));
        out.extend(message);
    }
    out
}

/// Pairs of a random message: some bits not sent, some lost, some wrong.
fn received(random: &mut Random, register: u8, length: usize) -> Vec<u8> {
    let mut coder = ConvolutionalCoder::new(register);
    let wrong = [0, 2, 10, 50][random.below(4) as usize];
    let lost = [0, 25, 50, 90][random.below(4) as usize];
    (0..length)
        .map(|_| {
            let (x, y) = coder.bit(random.below(2) as u8);
            let mut digit = |bit: u8| {
                if random.below(100) < lost {
                    2
                } else {
                    bit ^ u8::from(random.below(100) < wrong)
                }
            };
            3 * digit(x) + digit(y)
        })
        .collect()
}

/// One call, now and then one that is refused by one number alone.
fn call(random: &mut Random) -> Vec<u8> {
    let length = match random.below(16) {
        0 => 1632,
        1 => 1728,
        2 => random.below(1729),
        3 => 30 + random.below(5),
        4 => random.below(3),
        _ => 4 + random.below(9),
    } as usize;
    let mut register = random.below(64) as u8;
    // of a few random pairs several messages are often equally good
    let mut pairs = match random.below(4) {
        0 => received(random, register, length),
        1 if length > 12 => received(random, register, length),
        _ => (0..length).map(|_| random.below(9) as u8).collect(),
    };
    let mut bits = length;
    let mut room = 64 * length + 64 + random.below(3) as usize * 50;
    match random.below(24) {
        0 => register = 64 + random.below(192) as u8,
        1 if length > 0 => {
            pairs[random.below(length as u64) as usize] = 9 + random.below(247) as u8
        }
        2 => bits += 1,
        3 if length > 0 => bits -= 1,
        4 => room = 64 * length + 63,
        5 => room = 64 * length,
        6 => {
            pairs.resize(1729, 0);
            (bits, room) = (1729, 64 * 1730);
        }
        _ => {}
    }
    let length = pairs.len();
    let mut bytes = [length / 256, length % 256].map(|byte| byte as u8).to_vec();
    bytes.push(register);
    let numbers = [
        bits / 256,
        bits % 256,
        room / 65536,
        room / 256 % 256,
        room % 256,
    ];
    bytes.extend(numbers.map(|byte| byte as u8));
    bytes.extend(&pairs);
    bytes.resize(RECORD, 0);
    bytes
}

/// Random calls.
pub fn random(seed: u64, count: u64) -> Vec<u8> {
    let mut random = Random::new(seed);
    (0..count).flat_map(|_| call(&mut random)).collect()
}
