//! Byte-wise access: the runs of a register's bytes, the merging of a write, and the latches behind the scalers.

use super::{decline, Supervisor};

/// Neighbouring bytes of a register, one to four: the ten accesses of source document 001. BYTE(0) is bits 31–24,
/// BYTE(3) bits 7–0. [Bytes.2]
#[derive(Clone, Copy)]
pub(super) struct Run {
    first: u32,
    count: u32,
}

impl Run {
    const BYTES: u32 = 4;

    /// Takes any two numbers; declines 7 where they are no run. [Bytes.11]
    pub(super) fn new(first: u32, count: u32) -> Result<Run, u8> {
        // 64 bits, so that no sum wraps.
        if count == 0 || u64::from(first) + u64::from(count) > u64::from(Self::BYTES) {
            return Err(decline::RUN);
        }
        Ok(Run { first, count })
    }

    /// The bits of its bytes, where they stand in the whole word. [Bytes.2]
    pub(super) fn bits(self) -> u32 {
        let from_first = u32::MAX >> (8 * self.first);
        let up_to_last = u32::MAX << (8 * (Self::BYTES - self.first - self.count));
        from_first & up_to_last
    }

    /// The value with 0 in the bytes outside the run. [Bytes.7]
    pub(super) fn cut(self, value: u32) -> u32 {
        value & self.bits()
    }

    /// BYTE(3) is the byte that loads a counter, zeroes a scaler and latches one. [Bytes.4a] [Bytes.5a]
    pub(super) fn holds_byte_3(self) -> bool {
        self.first + self.count == Self::BYTES
    }
}

impl Supervisor {
    /// The value that a write by this run stands for: lacking bytes are those stored, in the CSR 0. Nor does TEST store
    /// any. [Bytes.3a] [Bytes.3b] [Open: T9]
    pub(super) fn merged(&self, register: u32, run: Run, value: u32) -> u32 {
        let kept = if register == Self::CSR { 0 } else { self.value_of(register).unwrap_or(0) };
        run.cut(value) | (kept & !run.bits())
    }

    /// A scaler as a read by this run sees it: its count, latched now, or the value latched last. [Bytes.5a] [Bytes.5b]
    pub(super) fn read_scaler(&mut self, scaler: usize, run: Run) -> u32 {
        self.latches[scaler] = if run.holds_byte_3() { self.scalers[scaler] } else { self.latches[scaler] };
        self.latches[scaler]
    }
}
