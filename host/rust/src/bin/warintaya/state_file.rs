//! Records kept in files between runs, as the bytes of `host/c/warintaya.h`. A file with the state of one layer, as it was kept
//! before there were records, is layer A alone.

use std::io::ErrorKind;
use std::path::Path;

use warintaya::{Coder, LayerName, Receiver, Refusal, Station};
use warintaya::{CODING_RECORD, CODING_STATE, RECEIVING_RECORD, RECEIVING_STATE};

use crate::failure::{Failure, Outcome};
use crate::settings::Wanted;
use crate::told::counted;

/// What is kept between runs.
pub trait Kept: Sized {
    /// The bytes of a record and of one layer's state, and what the record is called.
    const RECORD: usize;
    const STATE: usize;
    const NAME: &'static str;
    fn started(station: Station) -> Self;
    fn from_record(record: &[u8]) -> Result<Self, Refusal>;
    fn from_state(state: &[u8]) -> Result<Self, Refusal>;
    fn station(&self) -> Station;
    fn record(&self) -> &[u8];

    /// A layer's part of the record.
    fn part(&self, layer: LayerName) -> &[u8] {
        &self.record()[1 + Self::STATE * layer.place()..][..Self::STATE]
    }

    /// The same with another part for a layer, out of a record of the same station.
    fn with_part(&self, layer: LayerName, part: &[u8]) -> Result<Self, Refusal> {
        let mut record = self.record().to_vec();
        record[1 + Self::STATE * layer.place()..][..Self::STATE].copy_from_slice(part);
        Self::from_record(&record)
    }
}

impl Kept for Coder {
    const RECORD: usize = CODING_RECORD;
    const STATE: usize = CODING_STATE;
    const NAME: &'static str = "coding record";
    fn started(station: Station) -> Coder {
        Coder::new(station)
    }
    fn from_record(record: &[u8]) -> Result<Coder, Refusal> {
        Coder::from_record(record)
    }
    fn from_state(state: &[u8]) -> Result<Coder, Refusal> {
        Coder::from_state(state)
    }
    fn station(&self) -> Station {
        Coder::station(self)
    }
    fn record(&self) -> &[u8] {
        Coder::record(self)
    }
}

impl Kept for Receiver {
    const RECORD: usize = RECEIVING_RECORD;
    const STATE: usize = RECEIVING_STATE;
    const NAME: &'static str = "receiving record";
    fn started(station: Station) -> Receiver {
        Receiver::new(station)
    }
    fn from_record(record: &[u8]) -> Result<Receiver, Refusal> {
        Receiver::from_record(record)
    }
    fn from_state(state: &[u8]) -> Result<Receiver, Refusal> {
        Receiver::from_state(state)
    }
    fn station(&self) -> Station {
        Receiver::station(self)
    }
    fn record(&self) -> &[u8] {
        Receiver::record(self)
    }
}

/// Reads a record, if the file is there.
pub fn read<K: Kept>(path: &Path) -> Outcome<Option<K>> {
    let bytes = match std::fs::read(path) {
        Ok(bytes) => bytes,
        Err(why) if why.kind() == ErrorKind::NotFound => return Ok(None),
        Err(why) => return Err(Failure::file(path, "read", &why)),
    };
    let (file, name) = (path.display(), K::NAME);
    let (record, state) = (K::RECORD, K::STATE);
    let kept = match bytes.len() {
        count if count == record => K::from_record(&bytes),
        count if count == state => K::from_state(&bytes),
        count => {
            let count = counted(count, "byte");
            let what =
                format!("{file} has {count}, and a {name} has {record}, or {state} of one layer");
            return Err(Failure::at(what, Refusal::Record));
        }
    };
    let bad = |refusal| Failure::at(format!("{file} holds no good {name}"), refusal);
    kept.map(Some).map_err(bad)
}

/// What is given of the settings has to agree with what a file holds.
pub fn agrees(path: &Path, station: Station, wanted: &Wanted) -> Outcome {
    if wanted.allows(station) {
        return Ok(());
    }
    let file = path.display();
    let what = format!("{file} is a record of {station}, and other settings are given");
    Err(Failure::Refused(what))
}
