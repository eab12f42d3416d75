//! What happens to carriers on their way, the same in every run.

use warintaya::Layer;

/// What `damage` does, in words.
pub const WORDS: &str = "one bit of 150 wrong, and in each frame 50 carriers in a row";

/// Numbers that look random.
pub struct Noise(u64);

impl Noise {
    pub fn new(seed: u64) -> Noise {
        Noise(seed)
    }

    /// A number below `end`, by a linear congruence of which the high bits are taken.
    pub fn below(&mut self, end: u64) -> u64 {
        self.0 = self
            .0
            .wrapping_mul(6_364_136_223_846_793_005)
            .wrapping_add(1_442_695_040_888_963_407);
        (self.0 >> 33) % end
    }

    /// Turns one bit of 150 on the average, and spoils some carriers in a row in each frame.
    pub fn damage(&mut self, layer: Layer, carriers: &mut [u8]) {
        for carrier in &mut *carriers {
            for bit in 0..layer.v() {
                *carrier ^= u8::from(self.below(150) == 0) << bit;
            }
        }
        for frame in carriers.chunks_mut(layer.carriers()) {
            let begin = self.below(frame.len() as u64 - 50) as usize;
            for carrier in &mut frame[begin..begin + 50] {
                *carrier = self.below(1 << layer.v()) as u8;
            }
        }
    }
}
