//! Seeded numbers.

/// A small generator of numbers (xorshift), the same from one seed on every machine.
pub struct Random(u64);

impl Random {
    pub fn new(seed: u64) -> Random {
        Random(seed.wrapping_mul(0x9E37_79B9_7F4A_7C15) | 1)
    }

    pub fn below(&mut self, limit: u32) -> u32 {
        self.0 ^= self.0 << 13;
        self.0 ^= self.0 >> 7;
        self.0 ^= self.0 << 17;
        ((self.0 >> 32) as u32) % limit
    }

    pub fn one_of<T: Copy>(&mut self, choices: &[T]) -> Option<T> {
        let limit = u32::try_from(choices.len())
            .ok()
            .filter(|limit| *limit > 0)?;
        Some(choices[self.below(limit) as usize])
    }
}
