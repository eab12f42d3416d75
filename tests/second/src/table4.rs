//! Table 4 of the standard, as it is printed: the packets of a frame of one segment.

/// Packets of a frame of one segment: `[rate][modulation][mode]`, with rates 1/2, 2/3, 3/4, 5/6, 7/8, modulations QPSK,
/// 16QAM, 64QAM and modes 1, 2, 3.
pub const PACKETS: [[[u32; 3]; 3]; 5] = [
    [[12, 24, 48], [24, 48, 96], [36, 72, 144]],
    [[16, 32, 64], [32, 64, 128], [48, 96, 192]],
    [[18, 36, 72], [36, 72, 144], [54, 108, 216]],
    [[20, 40, 80], [40, 80, 160], [60, 120, 240]],
    [[21, 42, 84], [42, 84, 168], [63, 126, 252]],
];

/// Data carriers of one segment in one symbol, by mode.
pub const DATA_CARRIERS: [u32; 3] = [96, 192, 384];

/// Symbols of a frame.
pub const SYMBOLS: u32 = 204;
