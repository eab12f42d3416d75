//! The sending side of a station.

use std::fmt;

use crate::station::record_of;
use crate::{doors, LayerName, Refusal, Station, CODING_RECORD, CODING_STATE};

/// Codes the frames of a station's layers, each layer's one after the other, and replaces packets late.
///
/// It holds the record that goes from frame to frame. Each call names its layer, gives what that layer alone would give, and
/// alters nothing of the other two. A refused call alters neither the record nor anything that was lent.
#[derive(Clone, PartialEq, Eq)]
pub struct Coder {
    station: Station,
    record: Box<[u8; CODING_RECORD]>,
}

impl Coder {
    /// A station before its first frames; a [`Layer`](crate::Layer) is a station with layer A alone.
    pub fn new(station: impl Into<Station>) -> Coder {
        let station = station.into();
        let mut record = Box::new([0; CODING_RECORD]);
        // a station can be started and the area has a record's length, so that nothing is left to refuse
        let started = doors::start(station.mode(), &station.numbers(), &mut *record);
        debug_assert_eq!(started, Ok(()));
        Coder { station, record }
    }

    /// A station after some frames, from the record that [`Coder::record`] gave then.
    ///
    /// ```
    /// use warintaya::{Coder, Refusal, Station, UNUSED};
    ///
    /// let coder = Coder::new(Station::new(1, [[2, 1, 1], UNUSED, [6, 5, 12]])?);
    /// let kept = coder.record().to_vec();
    /// assert!(Coder::from_record(&kept)? == coder);
    /// assert_eq!(Coder::from_record(&kept[1..]).err(), Some(Refusal::Record));
    /// # Ok::<(), Refusal>(())
    /// ```
    ///
    /// # Errors
    ///
    /// [`Refusal::Record`] if the record isn't good, or has another length than [`CODING_RECORD`].
    pub fn from_record(record: &[u8]) -> Result<Coder, Refusal> {
        let mut record: Box<[u8; CODING_RECORD]> =
            match record.to_vec().into_boxed_slice().try_into() {
                Ok(record) => record,
                Err(_) => return Err(Refusal::Record),
            };
        // the record is tested before all else: a frame of no packets is refused with 7, or with 13 or 5 where the record is good
        let tested = doors::code(&mut *record, LayerName::A.number(), &[], &mut []);
        if tested == Err(Refusal::Record) {
            return Err(Refusal::Record);
        }
        let station = Station::of_record(&*record, CODING_STATE)?;
        Ok(Coder { station, record })
    }

    /// A station with layer A alone, from that layer's state: what [`Coder::state`] gives, and what was kept before there were
    /// records.
    ///
    /// # Errors
    ///
    /// [`Refusal::Record`] if the state isn't good, or has another length than [`CODING_STATE`].
    pub fn from_state(state: &[u8]) -> Result<Coder, Refusal> {
        Coder::from_record(&record_of(state, CODING_STATE)?)
    }

    /// The layers.
    pub fn station(&self) -> Station {
        self.station
    }

    /// The record behind the last frames, in the order of `host/c/warintaya.h`: it can be kept, and gone on from elsewhere.
    pub fn record(&self) -> &[u8; CODING_RECORD] {
        &self.record
    }

    /// A layer's part of the record, its coding state: zeros where the layer isn't used.
    pub fn state(&self, layer: LayerName) -> &[u8] {
        &self.record[1 + CODING_STATE * layer.place()..][..CODING_STATE]
    }

    /// Codes the next frame of a layer: P packets of 188 bytes into C carriers.
    ///
    /// # Errors
    ///
    /// In this order: [`Refusal::LayerUnused`] if the layer isn't used, [`Refusal::Length`] if `packets` isn't 188 × P long,
    /// [`Refusal::CarriersLength`] if `carriers` isn't C long, [`Refusal::Sync`] if a packet doesn't begin with 47.
    pub fn code(
        &mut self,
        layer: LayerName,
        packets: &[u8],
        carriers: &mut [u8],
    ) -> Result<(), Refusal> {
        doors::code(&mut *self.record, layer.number(), packets, carriers)
    }

    /// As [`Coder::replace`], without a look at what was coded: `old` has to be that very packet. Another one gives a frame with
    /// correct parity and a packet that nobody has written.
    ///
    /// # Errors
    ///
    /// In this order: [`Refusal::LayerUnused`] if the layer isn't used, [`Refusal::CarriersLength`] if `carriers` isn't C long,
    /// [`Refusal::Length`] if `old` or `new` isn't 188 bytes long, [`Refusal::Number`] if `number` isn't below P,
    /// [`Refusal::Value`] if a carrier is 2^v or more, [`Refusal::Sync`] if `old` or `new` doesn't begin with 47.
    pub fn replace_unchecked(
        &mut self,
        layer: LayerName,
        carriers: &mut [u8],
        number: usize,
        old: &[u8],
        new: &[u8],
    ) -> Result<(), Refusal> {
        doors::replace(
            &mut *self.record,
            layer.number(),
            carriers,
            number,
            old,
            new,
        )
    }

    /// Disperses the word that stands at `place` of a layer's frame and byte-interleaves it, 204 bytes into 204, and moves the
    /// interleaver's part of the layer's state on.
    ///
    /// # Errors
    ///
    /// In this order: [`Refusal::LayerUnused`] if the layer isn't used, [`Refusal::Length`] if a word isn't 204 bytes long,
    /// [`Refusal::Number`] if `place` isn't below P.
    pub fn disperse_interleave(
        &mut self,
        layer: LayerName,
        place: usize,
        word: &[u8],
        out: &mut [u8],
    ) -> Result<(), Refusal> {
        doors::disperse_interleave(&mut *self.record, layer.number(), place, word, out)
    }
}

impl fmt::Debug for Coder {
    /// The layers alone: nobody reads the rest.
    fn fmt(&self, formatter: &mut fmt::Formatter<'_>) -> fmt::Result {
        let mut shown = formatter.debug_struct("Coder");
        shown
            .field("station", &self.station)
            .finish_non_exhaustive()
    }
}
