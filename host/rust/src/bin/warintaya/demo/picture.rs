//! A picture of the carriers in which two transmissions differ.

use warintaya::Layer;

/// The signs of a row.
const SIGNS: usize = 64;

/// A row for each packet whose stretch of carriers has changed, and one before and behind; a sign for a few carriers.
pub fn draw(layer: Layer, before: &[u8], after: &[u8]) -> String {
    let stretch = layer.carriers() / layer.packets();
    let few = (stretch + SIGNS - 1) / SIGNS;
    let rows: Vec<Vec<usize>> = before
        .chunks(stretch)
        .zip(after.chunks(stretch))
        .map(|(one, other)| {
            one.chunks(few)
                .zip(other.chunks(few))
                .map(differing)
                .collect()
        })
        .collect();
    let changed = |row: usize| {
        rows.get(row)
            .map_or(false, |row| row.iter().any(|&count| count > 0))
    };
    let mut text = format!(
        "  a row is the {stretch} carriers of one packet's time, a sign is {few} of them:\n  \
         . none changed, + some, # half or more\n"
    );
    for (number, row) in rows.iter().enumerate() {
        if changed(number) || changed(number + 1) || number > 0 && changed(number - 1) {
            let (frame, packet) = (number / layer.packets(), number % layer.packets());
            let signs: String = row.iter().map(|&count| sign(count, few)).collect();
            text += &format!("  frame {frame}, {packet:>2}  {signs}\n");
        }
    }
    text + &counts(layer, before, after)
}

/// How many carriers of each frame have changed.
fn counts(layer: Layer, before: &[u8], after: &[u8]) -> String {
    let all = layer.carriers();
    let frames = before.chunks(all).zip(after.chunks(all)).enumerate();
    let counts: Vec<String> = frames
        .map(|(frame, pair)| format!("{} of frame {frame}", differing(pair)))
        .collect();
    format!("  changed, of {all}: {}\n", counts.join(", "))
}

/// In how many places two stretches differ.
fn differing((one, other): (&[u8], &[u8])) -> usize {
    one.iter()
        .zip(other)
        .filter(|(one, other)| one != other)
        .count()
}

/// The sign for so many changes of so many.
fn sign(count: usize, of: usize) -> char {
    match count {
        0 => '.',
        _ if 2 * count < of => '+',
        _ => '#',
    }
}
