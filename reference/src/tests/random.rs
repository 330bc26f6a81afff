//! A generator of random numbers, and of the values that calls take.

use super::*;

/// A xorshift generator, so that every run is the same.
pub struct Random(pub u64);

impl Random {
    pub fn next(&mut self) -> u32 {
        self.0 ^= self.0 << 13;
        self.0 ^= self.0 >> 7;
        self.0 ^= self.0 << 17;
        (self.0.wrapping_mul(0x2545_F491_4F6C_DD1D) >> 32) as u32
    }

    pub fn below(&mut self, limit: u32) -> u32 {
        ((u64::from(self.next()) * u64::from(limit)) >> 32) as u32
    }

    /// True once in `of` times.
    pub fn once_in(&mut self, of: u32) -> bool {
        self.below(of) == 0
    }

    pub fn flip(&mut self) -> bool {
        self.once_in(2)
    }

    pub fn pick<T: Copy>(&mut self, of: &[T]) -> T {
        of[self.below(of.len() as u32) as usize]
    }

    /// Few bits, many bits, or none.
    pub fn mask(&mut self) -> u32 {
        let (a, b, c) = (self.next(), self.next(), self.next());
        match self.below(4) {
            0 => a & b & c,
            1 => a & b,
            2 => a | b,
            _ => 0,
        }
    }

    /// A value for a register, mostly one that is taken and short enough for something to happen.
    pub fn register_value(&mut self, number: u32) -> u32 {
        if self.once_in(60) {
            return self.next() >> self.below(32);
        }
        match number {
            Supervisor::CSR => match self.below(16) {
                0..=4 => csr::GO,
                5 => csr::GO << 16,
                6..=8 => csr::ENABLE_SYNC | self.pick(&[csr::PAUSE_AND_SYNC, csr::FORCE_SYNC, csr::PAUSE_ON_NEXT_SYNC]),
                9..=11 => csr::GO | self.next() & 0x0FFE_0000,
                12 => csr::CLEAR_STATUS,
                _ => csr::GO | self.next() & 0xFFF & !(csr::PAUSE_AND_SYNC | csr::FORCE_SYNC),
            },
            Supervisor::CONTROL => {
                let strobe_mode = u32::from(self.once_in(4));
                (self.next() | self.next()) & 0x1FFE | strobe_mode | (self.next() & 0x8000)
            }
            Supervisor::FACTOR_1..=Supervisor::FACTOR_8 => self.below(5),
            Supervisor::ROC_ENABLE => match self.below(4) {
                0 => 0,
                1 => 1 << self.below(32),
                2 => 0x0101_0101 << self.below(8),
                _ => self.next() & self.next(),
            },
            Supervisor::SYNC_INTERVAL => self.below(7),
            Supervisor::T1..=Supervisor::T5 => self.below(7),
            Supervisor::ASSIGN => self.pick(&[0x00, 0x01, 0x09, 0x0D, 0x0E, 0x0F, 0x10, 0x2F, 0x30, 0x50, 0x5F, 0x40]),
            Supervisor::TEST => self.test_value(),
            _ => self.next(),
        }
    }

    /// A value for TEST: pulses, a step, written acknowledges, any good bits, or any.
    pub fn test_value(&mut self) -> u32 {
        let any = self.next();
        match self.below(6) {
            0 => test::LEVEL_1_PASS | any & 0x3C,
            1 => test::SINGLE_STEP | any & 0x3D,
            2 => test::ENABLE_ACKNOWLEDGES | any & 0x3C00,
            3 => 1 << self.below(16),
            4 => any & test::BITS,
            _ => any & self.next() & test::BITS,
        }
    }

    pub fn memory_word(&mut self) -> u16 {
        (self.next() as u16) | if self.once_in(8) { 0 } else { 1 }
    }

    pub fn lines(&mut self) -> u32 {
        let mut lines = self.mask() & 0x1E;
        lines |= if self.once_in(3) { 0 } else { line::STROBE };
        lines |= if self.once_in(5) { line::FRONT_BUSY } else { 0 };
        lines |= if self.once_in(9) { line::INHIBIT } else { 0 };
        lines
    }

    pub fn acknowledges(&mut self) -> u32 {
        match self.below(4) {
            0 => 0,
            1 => u32::MAX,
            2 => self.next(),
            _ => self.next() & self.next(),
        }
    }
}
