//! A generator of numbers, the same for the same seed.

pub struct Random(u64);

impl Random {
    /// The seed is mixed first: of two that are near, one would give the other's numbers, a few places on.
    pub fn new(seed: u64) -> Random {
        Random(Random(seed).wide())
    }

    pub fn wide(&mut self) -> u64 {
        self.0 = self.0.wrapping_add(0x9E37_79B9_7F4A_7C15);
        let mut z = self.0;
        z = (z ^ (z >> 30)).wrapping_mul(0xBF58_476D_1CE4_E5B9);
        z = (z ^ (z >> 27)).wrapping_mul(0x94D0_49BB_1331_11EB);
        z ^ (z >> 31)
    }

    pub fn next(&mut self) -> u32 {
        (self.wide() >> 32) as u32
    }

    pub fn below(&mut self, limit: u32) -> u32 {
        ((u64::from(self.next()) * u64::from(limit)) >> 32) as u32
    }

    /// True in `of` of 256 cases.
    pub fn chance(&mut self, of: u32) -> bool {
        self.below(256) < of
    }

    /// True once in `of` times.
    pub fn once_in(&mut self, of: u32) -> bool {
        self.below(of) == 0
    }

    pub fn pick<T: Copy>(&mut self, of: &[T]) -> T {
        of[self.below(of.len() as u32) as usize]
    }
}
