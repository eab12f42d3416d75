//! `warintaya demo`: a station with a guide and a clock is coded, damaged and received, its clock is replaced late, and its guide
//! is spoiled by a count that the station has outgrown.

mod letter;
mod noise;
mod picture;
mod small_station;

use warintaya::{Coder, Layer, LayerName, Packet, Receiver, PACKET};

use crate::failure::{Failure, Outcome};
use crate::options::{Kind, Options};
use crate::print;
use noise::Noise;
use small_station::{clock_of, guide, SmallStation};
use small_station::{CLOCK, FRAMES, LATE};

pub const OPTIONS: &[(&str, Kind)] = &[];

/// Frames of carriers one behind the other, those of layer A and those of layer B, and the coder behind them.
struct Sent {
    carriers: Vec<u8>,
    beside: Vec<u8>,
    coder: Coder,
}

/// What came out of carriers.
struct Came {
    packets: Vec<u8>,
    corrected: usize,
    lost: usize,
}

/// Codes all frames of both layers in turn. `behind` is called with the number of each frame of layer A when it is coded, with
/// its carriers.
fn send(
    station: &SmallStation,
    packets: &[u8],
    mut behind: impl FnMut(usize, &mut Coder, &mut [u8]) -> Outcome,
) -> Outcome<Sent> {
    let (layer, beside) = (station.layer, station.beside);
    let packets_beside = station.packets_beside();
    let mut sent = Sent {
        carriers: vec![0; FRAMES * layer.carriers()],
        beside: vec![0; FRAMES * beside.carriers()],
        coder: Coder::new(station.station),
    };
    let areas = sent.carriers.chunks_mut(layer.carriers());
    let areas_beside = sent.beside.chunks_mut(beside.carriers());
    for (number, (carriers, carriers_beside)) in areas.zip(areas_beside).enumerate() {
        let frame = |packets, layer| frame_of(packets, layer, number);
        let coder = &mut sent.coder;
        coder.code(LayerName::A, frame(packets, layer), carriers)?;
        coder.code(
            LayerName::B,
            frame(&packets_beside, beside),
            carriers_beside,
        )?;
        behind(number, coder, carriers)?;
    }
    Ok(sent)
}

/// The packets of one frame.
fn frame_of(packets: &[u8], layer: Layer, number: usize) -> &[u8] {
    let length = PACKET * layer.packets();
    &packets[number * length..][..length]
}

/// Damages carriers.
fn damaged(layer: Layer, carriers: &[u8]) -> Vec<u8> {
    let mut damaged = carriers.to_vec();
    Noise::new(7).damage(layer, &mut damaged);
    damaged
}

/// Receives the carriers of layer A.
fn receive(station: &SmallStation, carriers: &[u8]) -> Outcome<Came> {
    let mut receiver = Receiver::new(station.station);
    let mut came = Came {
        packets: Vec::new(),
        corrected: 0,
        lost: 0,
    };
    for frame in carriers.chunks(station.layer.carriers()) {
        for packet in receiver.receive(LayerName::A, frame)?.packets() {
            match packet {
                Packet::Corrected(bytes, packet) => {
                    came.corrected += usize::from(bytes);
                    came.packets.extend(packet);
                }
                Packet::WrongStart | Packet::Lost => came.lost += 1,
            }
        }
    }
    Ok(came)
}

/// The packets that came are those sent, all but the last twelve.
fn as_sent(came: &Came, packets: &[u8]) -> bool {
    let awaited = packets.len() - PACKET * warintaya::DELAY;
    came.lost == 0 && came.packets == packets[..awaited]
}

/// Says that something is so, or fails.
fn agreed(so: bool, what: &str) -> Outcome<String> {
    match so {
        true => Ok(format!("  yes  {what}\n")),
        false => Err(Failure::Refused(format!("not so: {what}"))),
    }
}

/// The guide of a frame that came, a line each.
fn guide_shown(came: &Came, layer: Layer, frame: usize) -> String {
    let lines = guide(frame_of(&came.packets, layer, frame)).into_iter();
    lines.map(|line| format!("  {line}\n")).collect()
}

/// What a receiver has shown: the guide once, and the clock of every frame that came whole.
fn shown(came: &Came, layer: Layer) -> String {
    let packets = came.packets.chunks(PACKET);
    let clocks: Vec<String> = packets.filter_map(clock_of).collect();
    let guide = guide_shown(came, layer, 0);
    format!("{guide}  the clock: {}\n", clocks.join(", "))
}

/// A packet of a frame is another one.
fn with_packet(packets: &[u8], layer: Layer, frame: usize, number: usize, new: &[u8]) -> Vec<u8> {
    let mut changed = packets.to_vec();
    let place = PACKET * (frame * layer.packets() + number);
    changed[place..place + PACKET].copy_from_slice(new);
    changed
}

/// The first part: coded, damaged, received.
fn there_and_back(station: &SmallStation, packets: &[u8], sent: &Sent) -> Outcome<String> {
    let layer = station.layer;
    let came = receive(station, &damaged(layer, &sent.carriers))?;
    let (count, corrected) = (came.packets.len() / PACKET, came.corrected);
    let mut text = format!(
        "A station with two layers:\n  {}\n\
         Layer A has {} packets and {} carriers a frame. {FRAMES} frames are coded, damaged\n({}) and received:\n{}",
        station.station,
        layer.packets(),
        layer.carriers(),
        noise::WORDS,
        shown(&came, layer)
    );
    let what =
        format!("{count} packets came back as they were sent, with {corrected} bytes corrected");
    text += &agreed(as_sent(&came, packets), &what)?;
    Ok(text)
}

/// The second part: the clock of a frame is replaced late, and the frame coded again besides.
fn late(station: &SmallStation, packets: &[u8], sent: &Sent) -> Outcome<String> {
    let layer = station.layer;
    let (old, new) = (station.coded_clock(LATE), station.late_clock());
    let replaced = send(station, packets, |number, coder, carriers| match number {
        LATE => Ok(coder.replace(LayerName::A, carriers, CLOCK, &old, &new)?),
        _ => Ok(()),
    })?;
    let changed = with_packet(packets, layer, LATE, CLOCK, &new);
    let again = send(station, &changed, |_, _, _| Ok(()))?;
    let came = receive(station, &damaged(layer, &replaced.carriers))?;
    let mut text = format!(
        "\nFrame {LATE} is coded already when its clock, packet {CLOCK}, is replaced.\nWhere carriers change:\n{}",
        picture::draw(layer, &sent.carriers, &replaced.carriers)
    );
    text += "Replaced late, or coded again:\n";
    text += &agreed(
        replaced.carriers == again.carriers,
        "both give the same carriers, of this frame and those behind it",
    )?;
    text += &agreed(replaced.coder == again.coder, "both leave the same state")?;
    text += &agreed(
        replaced.carriers != sent.carriers,
        "and they are not those from before",
    )?;
    text += &agreed(
        replaced.beside == sent.beside,
        "but those of layer B are, which is coded in the same record",
    )?;
    text += &format!("Damaged and received again:\n{}", shown(&came, layer));
    text += &agreed(
        as_sent(&came, &changed),
        "every packet came back, the new clock among them",
    )?;
    Ok(text)
}

pub fn run(_: &Options) -> Outcome {
    let station = SmallStation::new()?;
    let packets = station.packets();
    let sent = send(&station, &packets, |_, _, _| Ok(()))?;
    let mut text = there_and_back(&station, &packets, &sent)?;
    text += &late(&station, &packets, &sent)?;
    text += &letter::told(&station, &packets)?;
    print(&text)
}
