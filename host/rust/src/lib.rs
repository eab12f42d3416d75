//! Channel coding for the layers of an ISDB-T station: from 188-byte transport packets to carrier values, back again, and the
//! replacement of one packet in a frame that is coded already. The work is done by a library that is proved in Rattle and linked
//! in; this crate gives it safe types, and adds nothing to what it computes.
//!
//! - [`Layer`]: the settings of one layer, and the sizes of its frames.
//! - [`Station`]: up to three layers of one mode, named by [`LayerName`]; a [`Layer`] is a station with layer A alone.
//! - [`Coder`]: codes frames, reads packets of a coded frame, and replaces them late; [`NotReplaced`] says why it has not.
//! - [`Receiver`]: takes frames, and gives [`Packet`]s.
//! - [`FrameReader`] and [`FrameWriter`]: whole streams behind `Read` and `Write`, both ways.
//! - [`Mode`], [`Modulation`], [`Rate`]: settings by their names; each is read from text.
//! - [`Refusal`]: why a call was refused.
//!
//! # A whole example
//!
//! A station has a small layer A with a clock and a large layer B with pictures. Two frames of each are coded, the last packet of
//! A's second frame is replaced late, some carriers are spoiled, and the packets come back.
//!
//! ```
//! use warintaya::LayerName::{A, B};
//! use warintaya::{Coder, Layer, Packet, Receiver, Station, PACKET, UNUSED};
//!
//! // mode 1; A: QPSK, rate 2/3, one segment; B: 64QAM, rate 3/4, twelve segments; no C
//! let station = Station::new(1, [[2, 2, 1], [6, 3, 12], UNUSED])?;
//! let [small, large] = [A, B].map(|name| station.layer(name).expect("a layer that is used"));
//! assert_eq!((small.packets(), large.packets()), (16, 648));
//!
//! let packet = |text: &[u8]| {
//!     let mut packet = [0xFF; PACKET];
//!     packet[..4].copy_from_slice(&[0x47, 0x00, 0x14, 0x10]);
//!     packet[4..4 + text.len()].copy_from_slice(text);
//!     packet
//! };
//! let (six, seven) = (packet(b"it is six o'clock"), packet(b"it is seven o'clock"));
//! let (clocks, pictures) = (six.repeat(small.packets()), packet(b"a picture").repeat(large.packets()));
//!
//! // a frame of each layer, and another one
//! let area = |layer: Layer| vec![0; layer.carriers()];
//! let (mut first, mut second) = ([area(small), area(large)], [area(small), area(large)]);
//! let mut coder = Coder::new(station);
//! coder.code(A, &clocks, &mut first[0])?;
//! coder.code(B, &pictures, &mut first[1])?;
//! let before = coder.clone();
//! coder.code(A, &clocks, &mut second[0])?;
//! coder.code(B, &pictures, &mut second[1])?;
//!
//! // the last clock is to be another one, though its frame is coded already; it is read first that it was six that was coded
//! let last = small.packets() - 1;
//! coder.replace(A, &mut second[0], last, &six, &seven)?;
//!
//! // that is the same as coding the frame again, and layer B stays as it is
//! let mut changed = clocks.clone();
//! changed[last * PACKET..].copy_from_slice(&seven);
//! let (mut again, mut carriers) = (before, [area(small), area(large)]);
//! again.code(A, &changed, &mut carriers[0])?;
//! again.code(B, &pictures, &mut carriers[1])?;
//! assert!(again == coder && carriers == second);
//!
//! // the first frame of a layer gives P - 12 packets, the second P
//! first[0][5000..5020].fill(0);
//! let mut receiver = Receiver::new(station);
//! assert_eq!(receiver.receive(A, &first[0])?.packets().count(), 4);
//! assert_eq!(receiver.receive(B, &first[1])?.packets().count(), 636);
//! for received in receiver.receive(A, &second[0])?.packets() {
//!     match received {
//!         Packet::Corrected(bytes, packet) => assert!(bytes <= 8 && *packet == six),
//!         Packet::WrongStart | Packet::Lost => panic!("more was spoiled than can be mended"),
//!     }
//! }
//! # Ok::<(), Box<dyn std::error::Error>>(())
//! ```
//!
//! # Linking
//!
//! The library is what `host/library` leaves in the `built` folder of this repository; the environment variable `WARINTAYA` names
//! another archive. Going back needs some 215 KB of stack.

#![deny(missing_docs)]
#![deny(unsafe_code)]

mod adaptors;
mod coded;
mod coder;
#[allow(unsafe_code)]
pub mod doors;
mod layer;
mod layer_name;
mod names;
mod receiver;
mod refusal;
mod station;

pub use adaptors::{lost_packet, Coding, FrameReader, FrameWriter, Frames, Receiving};
pub use coded::NotReplaced;
pub use coder::Coder;
pub use layer::Layer;
pub use layer_name::LayerName;
pub use names::{settings, Mode, Modulation, Rate};
pub use receiver::{Packet, Packets, Received, Receiver};
pub use refusal::Refusal;
pub use station::{StartRefused, Station, UNUSED};

/// The bytes of a transport packet.
pub const PACKET: usize = 188;

/// The bytes of a word: a packet's last 187, its 16 of parity, and the sync byte of the packet after it.
pub const WORD: usize = 204;

/// The bytes of a slot: how many bytes were corrected, 254 or 255, and a packet.
pub const SLOT: usize = 189;

/// The byte that every packet begins with.
pub const SYNC: u8 = 0x47;

/// How many packets of a layer are still on their way when all its frames so far have been received.
pub const DELAY: usize = 12;

/// The bytes of a coding state, a layer's part of a coding record.
pub const CODING_STATE: usize = 1487;

/// The bytes of a coding record: the mode, and the coding states of A, B and C.
pub const CODING_RECORD: usize = 1 + 3 * CODING_STATE;

/// The bytes of a receiving state, a layer's part of a receiving record.
pub const RECEIVING_STATE: usize = 4560;

/// The bytes of a receiving record: the mode, and the receiving states of A, B and C.
pub const RECEIVING_RECORD: usize = 1 + 3 * RECEIVING_STATE;
