//! The independent second program: document 01's rules by the standard's own machines and by tables, sharing nothing with the
//! crates. `tests/second` is run beside the proved programs, and `tests/doors` takes its expected answers from here.

pub mod best;
pub mod coding;
pub mod endings;
pub mod entries;
pub mod frame;
pub mod frames;
pub mod frames_coded;
pub mod layer;
pub mod lines;
pub mod machines;
pub mod programs;
pub mod random;
pub mod receiving;
pub mod record;
pub mod reed_solomon;
pub mod state;
pub mod sums;
mod table;
pub mod table4;
pub mod texts;
pub mod words;
