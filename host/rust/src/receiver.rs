//! The receiving side of a station.

use std::fmt;

use crate::station::record_of;
use crate::{
    doors, Layer, LayerName, Refusal, Station, PACKET, RECEIVING_RECORD, RECEIVING_STATE, SLOT,
};

/// Takes the frames of a station's layers, each layer's one after the other, and gives packets.
///
/// It holds the record that goes from frame to frame. Each call names its layer, gives what that layer alone would give, and
/// alters nothing of the other two. A refused call alters neither the record nor anything that was lent.
#[derive(Clone, PartialEq, Eq)]
pub struct Receiver {
    station: Station,
    record: Box<[u8; RECEIVING_RECORD]>,
}

impl Receiver {
    /// A receiver before its first frames; a [`Layer`](crate::Layer) is a station with layer A alone.
    pub fn new(station: impl Into<Station>) -> Receiver {
        let station = station.into();
        let mut record = Box::new([0; RECEIVING_RECORD]);
        // a station can be started and the area has a record's length, so that nothing is left to refuse
        let started = doors::receive_start(station.mode(), &station.numbers(), &mut *record);
        debug_assert_eq!(started, Ok(()));
        Receiver { station, record }
    }

    /// A receiver after some frames, from the record that [`Receiver::record`] gave then.
    ///
    /// # Errors
    ///
    /// [`Refusal::Record`] if the record isn't good, or has another length than [`RECEIVING_RECORD`].
    pub fn from_record(record: &[u8]) -> Result<Receiver, Refusal> {
        let mut record: Box<[u8; RECEIVING_RECORD]> =
            match record.to_vec().into_boxed_slice().try_into() {
                Ok(record) => record,
                Err(_) => return Err(Refusal::Record),
            };
        // the record is tested before all else: no carriers are refused with 7, or with 13 or 6 where the record is good
        let tested = doors::back(&mut *record, LayerName::A.number(), &[], &mut []);
        if tested == Err(Refusal::Record) {
            return Err(Refusal::Record);
        }
        let station = Station::of_record(&*record, RECEIVING_STATE)?;
        Ok(Receiver { station, record })
    }

    /// A receiver of layer A alone, from that layer's state: what [`Receiver::state`] gives, and what was kept before there were
    /// records.
    ///
    /// # Errors
    ///
    /// [`Refusal::Record`] if the state isn't good, or has another length than [`RECEIVING_STATE`].
    pub fn from_state(state: &[u8]) -> Result<Receiver, Refusal> {
        Receiver::from_record(&record_of(state, RECEIVING_STATE)?)
    }

    /// The layers.
    pub fn station(&self) -> Station {
        self.station
    }

    /// The record behind the last frames, in the order of `host/c/warintaya.h`: it can be kept, and gone on from elsewhere.
    pub fn record(&self) -> &[u8; RECEIVING_RECORD] {
        &self.record
    }

    /// A layer's part of the record, its receiving state: zeros where the layer isn't used.
    pub fn state(&self, layer: LayerName) -> &[u8] {
        &self.record[1 + RECEIVING_STATE * layer.place()..][..RECEIVING_STATE]
    }

    /// Takes the next frame of a layer, C carriers, and gives packets into P slots of 189 bytes: the first of them are written, as
    /// many as it says, and the rest stay. [`Packet::read`] reads a slot.
    ///
    /// Packets come out late: the first frame gives P − 12, each later one P.
    ///
    /// # Errors
    ///
    /// In this order: [`Refusal::LayerUnused`] if the layer isn't used, [`Refusal::CarriersLength`] if `carriers` isn't C long,
    /// [`Refusal::Length`] if `slots` isn't 189 × P long, [`Refusal::Value`] if a carrier is 2^v or more.
    pub fn back(
        &mut self,
        layer: LayerName,
        carriers: &[u8],
        slots: &mut [u8],
    ) -> Result<usize, Refusal> {
        doors::back(&mut *self.record, layer.number(), carriers, slots)
    }

    /// As [`Receiver::back`], into room of its own.
    ///
    /// # Errors
    ///
    /// In this order: [`Refusal::LayerUnused`], [`Refusal::CarriersLength`], [`Refusal::Value`].
    pub fn receive(&mut self, layer: LayerName, carriers: &[u8]) -> Result<Received, Refusal> {
        let count = self.station.layer(layer).map_or(0, Layer::packets);
        let mut slots = vec![0; SLOT * count];
        let given = self.back(layer, carriers, &mut slots)?;
        slots.truncate(SLOT * given);
        Ok(Received { slots })
    }
}

impl fmt::Debug for Receiver {
    /// The layers alone: nobody reads the rest.
    fn fmt(&self, formatter: &mut fmt::Formatter<'_>) -> fmt::Result {
        let mut shown = formatter.debug_struct("Receiver");
        shown
            .field("station", &self.station)
            .finish_non_exhaustive()
    }
}

/// What came out for one packet.
#[derive(Clone, Copy, Debug, PartialEq, Eq)]
pub enum Packet<'a> {
    /// The packet, and how many bytes of its word were corrected, 0 to 8.
    Corrected(u8, &'a [u8; PACKET]),
    /// 254: the one codeword within eight bytes doesn't begin with 47.
    WrongStart,
    /// 255: no codeword is within eight bytes.
    Lost,
}

impl Packet<'_> {
    /// Reads a slot that [`Receiver::back`] has given. Nothing, if the bytes aren't such a slot.
    ///
    /// ```
    /// use warintaya::Packet;
    ///
    /// let mut slot = [0; 189];
    /// slot[0] = 255;
    /// assert_eq!(Packet::read(&slot), Some(Packet::Lost));
    /// slot[0] = 9;
    /// assert_eq!(Packet::read(&slot), None);
    /// ```
    pub fn read(slot: &[u8]) -> Option<Packet<'_>> {
        let (first, packet) = slot.split_first()?;
        let packet: &[u8; PACKET] = packet.try_into().ok()?;
        match first {
            0..=8 => Some(Packet::Corrected(*first, packet)),
            254 => Some(Packet::WrongStart),
            255 => Some(Packet::Lost),
            _ => None,
        }
    }
}

/// The packets of slots, one after the other.
///
/// ```
/// use warintaya::{Packet, Packets};
///
/// let mut slots = [0; 2 * 189];
/// slots[..2].copy_from_slice(&[3, 0x47]);
/// slots[189] = 255;
/// let packets: Vec<Packet> = Packets::new(&slots).collect();
/// assert!(matches!(packets[..], [Packet::Corrected(3, _), Packet::Lost]));
/// ```
#[derive(Clone, Debug)]
pub struct Packets<'a> {
    slots: std::slice::ChunksExact<'a, u8>,
}

impl Packets<'_> {
    /// Those of slots that [`Receiver::back`] has given. Bytes that aren't such slots are passed over.
    pub fn new(slots: &[u8]) -> Packets<'_> {
        let slots = slots.chunks_exact(SLOT);
        Packets { slots }
    }
}

impl<'a> Iterator for Packets<'a> {
    type Item = Packet<'a>;

    fn next(&mut self) -> Option<Packet<'a>> {
        self.slots.find_map(Packet::read)
    }

    fn size_hint(&self) -> (usize, Option<usize>) {
        (0, Some(self.slots.len()))
    }
}

/// What a frame has given.
#[derive(Clone, Debug, PartialEq, Eq)]
pub struct Received {
    slots: Vec<u8>,
}

impl Received {
    /// The packets, in the order in which they were sent.
    pub fn packets(&self) -> Packets<'_> {
        // a given slot can always be read, so that none is left out
        Packets::new(&self.slots)
    }

    /// The slots that were given, 189 bytes each.
    pub fn slots(&self) -> &[u8] {
        &self.slots
    }
}

impl<'a> IntoIterator for &'a Received {
    type Item = Packet<'a>;
    type IntoIter = Packets<'a>;

    /// The packets.
    fn into_iter(self) -> Packets<'a> {
        self.packets()
    }
}
