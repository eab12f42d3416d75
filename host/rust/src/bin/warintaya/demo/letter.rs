//! The third part of the demonstration: the station has grown its layer A from one segment to three, and a replacement still
//! counts packets by the old frame.

use warintaya::{Coder, Layer, LayerName, NotReplaced, Refusal, Station, PACKET};

use super::small_station::{guide, SmallStation, BEFORE, LATE, MODE, MOVED, TOO_LARGE};
use super::{agreed, as_sent, frame_of, guide_shown, receive, send, with_packet, Sent};
use crate::failure::Outcome;

/// The station before it grew, and its layer A.
struct Before {
    station: Station,
    layer: Layer,
}

impl Before {
    fn new() -> Outcome<Before> {
        let [v, rate, segments] = BEFORE[0];
        Ok(Before {
            station: Station::new(MODE, BEFORE).map_err(Refusal::from)?,
            layer: Layer::new(MODE, v, rate, segments)?,
        })
    }
}

/// All frames, in one of which the moved line is replaced as packet `number` without a look at what was coded there.
fn replaced_as(station: &SmallStation, packets: &[u8], number: usize) -> Outcome<Sent> {
    let [old, new] = station.moved_line();
    send(station, packets, |frame, coder, carriers| match frame {
        LATE => Ok(coder.replace_unchecked(LayerName::A, carriers, number, &old, &new)?),
        _ => Ok(()),
    })
}

/// What a replacement that looks answers in that frame.
fn looked_at(station: &SmallStation, packets: &[u8], number: usize) -> Outcome<NotReplaced> {
    let [old, new] = station.moved_line();
    let mut answer = Refusal::Number.into();
    send(station, packets, |frame, coder, carriers| {
        if frame == LATE {
            let done = coder.replace(LayerName::A, carriers, number, &old, &new);
            answer = done.err().unwrap_or(answer);
        }
        Ok(())
    })?;
    Ok(answer)
}

/// The growth: layer B has to make room for it.
fn grown(station: &SmallStation, before: &Before) -> Outcome<String> {
    let refused = Station::new(MODE, TOO_LARGE).map_err(|why| why.refusal);
    let (old, new) = (before.layer.packets(), station.layer.packets());
    let mut text = format!("\nThe station has grown. It was:\n  {}\n", before.station);
    text += &agreed(
        refused == Err(Refusal::TooManySegments),
        "three segments in A beside twelve in B are refused (refusal 12)",
    )?;
    text += &agreed(
        station.station.segments() == 13 && new == 3 * old,
        &format!("beside ten they are started: a frame of A has {new} packets, not {old}"),
    )?;
    Ok(text)
}

/// The line is moved in the packet that the old count gives: the guide is spoiled, and nobody sees it.
fn by_the_old_frame(station: &SmallStation, packets: &[u8], number: usize) -> Outcome<String> {
    let layer = station.layer;
    // what that packet then holds: itself, with the difference that was meant for the other one
    let mut spoiled = frame_of(packets, layer, LATE)[PACKET * number..][..PACKET].to_vec();
    let [old, new] = station.moved_line();
    for (byte, (old, new)) in spoiled.iter_mut().zip(old.iter().zip(new)) {
        *byte ^= old ^ new;
    }
    let sent = replaced_as(station, packets, number)?;
    let came = receive(station, &sent.carriers)?;
    let written = with_packet(packets, layer, LATE, number, &spoiled);
    let mut text = guide_shown(&came, layer, LATE);
    text += &agreed(
        as_sent(&came, &written) && came.corrected == 0,
        "a receiver takes every packet as good, with no byte corrected",
    )?;
    let lines = guide(frame_of(&came.packets, layer, LATE));
    text += &agreed(
        lines.last().map_or(false, |line| line.contains("valley")),
        "and shows the seven o'clock news after the eight o'clock news",
    )?;
    Ok(text)
}

/// The old count is refused: by what was coded, and by the record's own settings.
fn refused(
    station: &SmallStation,
    packets: &[u8],
    before: &Before,
    number: usize,
) -> Outcome<String> {
    let [old, new] = station.moved_line();
    let looked = looked_at(station, packets, number)?;
    let found = Some(MOVED);
    let mut text = agreed(
        matches!(looked, NotReplaced::OtherPacket { found: there, .. } if there == found),
        &format!("as packet {number} it is refused: another was coded there, and this is {MOVED}"),
    )?;
    let refused = |station: Station| {
        let mut carriers = vec![0; before.layer.carriers()];
        let mut coder = Coder::new(station);
        coder.replace_unchecked(LayerName::A, &mut carriers, MOVED, &old, &new)
    };
    text += &agreed(
        refused(station.station) == Err(Refusal::CarriersLength),
        "the carriers of an old frame are refused (refusal 6)",
    )?;
    text += &agreed(
        refused(before.station) == Err(Refusal::Number),
        &format!("packet {MOVED} is refused in a record from before the growth (refusal 9)"),
    )?;
    Ok(text)
}

/// The right count gives what coding again gives.
fn by_the_record(station: &SmallStation, packets: &[u8]) -> Outcome<String> {
    let layer = station.layer;
    let [_, new] = station.moved_line();
    let right = replaced_as(station, packets, MOVED)?;
    let changed = with_packet(packets, layer, LATE, MOVED, &new);
    let again = send(station, &changed, |_, _, _| Ok(()))?;
    let came = receive(station, &right.carriers)?;
    let mut text = agreed(
        right.carriers == again.carriers && right.coder == again.coder,
        &format!("packet {MOVED}, replaced late, is what coding again gives"),
    )?;
    text += &guide_shown(&came, layer, LATE);
    text += &agreed(
        as_sent(&came, &changed),
        "every packet came back, the moved line among them",
    )?;
    Ok(text)
}

/// The whole story.
pub fn told(station: &SmallStation, packets: &[u8]) -> Outcome<String> {
    let before = Before::new()?;
    let (old, new) = (before.layer.packets(), station.layer.packets());
    let place = LATE * new + MOVED;
    let number = place % old;
    let mut text = grown(station, &before)?;
    text += &format!(
        "In frame {LATE} the river moves to 20:30, late: packet {MOVED}, the stream's packet {place}.\n\
         Counted by the old frame it is packet {number}, which is another line of the guide:\n"
    );
    text += &by_the_old_frame(station, packets, number)?;
    text += "Here the packet that was coded is read, and the record's own settings count:\n";
    text += &refused(station, packets, &before, number)?;
    text += &by_the_record(station, packets)?;
    Ok(text)
}
