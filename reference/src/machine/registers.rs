//! Register write and read, whole and by bytes, and what a write to the CSR does.

use super::bytes::Run;
use super::{control, csr, decline, test, Branch, Count20, Count40, Supervisor};

/// The bits that a write to each register takes. [Registers.1] [Widths.1] [Widths.2] [Control.1] [Declines.2d]
/// [Test.5a]
const TAKEN_BITS: [u32; 22] = [
    !csr::NOT_TAKEN,
    control::BITS,
    Supervisor::WIDE_FACTOR,
    Supervisor::WIDE_FACTOR,
    Supervisor::WIDE_FACTOR,
    Supervisor::WIDE_FACTOR,
    Supervisor::NARROW_FACTOR,
    Supervisor::NARROW_FACTOR,
    Supervisor::NARROW_FACTOR,
    Supervisor::NARROW_FACTOR,
    u32::MAX,
    0xFFFF,
    0xFFFF,
    0xFFFF,
    0xFFFF,
    0xFFFF,
    0xFF,
    u32::MAX, // any value zeroes the scaler [Registers.3]
    u32::MAX,
    0x7F, // and of these only the listed codes
    0,    // STATE, which no write reaches
    test::BITS,
];

/// The assign codes that are listed. [Assign.1]
#[inline]
pub(super) const fn is_listed(assign: u32) -> bool {
    matches!(assign, 0x00..=0x3F | 0x50..=0x5F)
}

/// The registers that a write reaches: STATE is read only. [Declines.2b] [State.8b] [Test.1]
const fn is_writable(number: u32) -> bool {
    number <= Supervisor::ASSIGN || number == Supervisor::TEST
}

/// Whether a write of this value to this register (0–19, 21) escapes decline 5. [Declines.2d]
const fn is_taken(number: u32, value: u32) -> bool {
    value & !TAKEN_BITS[number as usize] == 0 && (number != Supervisor::ASSIGN || is_listed(value))
}

impl Supervisor {
    /// Writes a register: the run of all four bytes, which is never declined with 7. [Bytes.2]
    pub fn write_register(&mut self, number: u32, value: u32) -> Result<(), u8> {
        self.write_bytes(number, 0, 4, value)
    }

    /// Writes the bytes of a register from `first` on, `count` of them. The value's bytes stand in place, those outside
    /// the run are ignored. Declines 1, 3, 7, 4, 5 in this order. [Declines.2a]–[Declines.2d] [Bytes.7] [Bytes.11]
    /// [Test.2]
    pub fn write_bytes(&mut self, number: u32, first: u32, count: u32, value: u32) -> Result<(), u8> {
        self.not_spoiled()?;
        if !is_writable(number) {
            return Err(decline::NUMBER);
        }
        let run = Run::new(first, count)?;
        if matches!(number, Self::CONTROL..=Self::T5) && self.is_active() && !self.is_open(number) {
            self.csr |= csr::WRITE_ERROR;
            return Err(decline::ACTIVE);
        }
        let value = self.merged(number, run, value);
        if !is_taken(number, value) {
            return Err(decline::VALUE);
        }
        self.store(number, run, value);
        Ok(())
    }

    /// A write carried out, with the merged value.
    fn store(&mut self, number: u32, run: Run, value: u32) {
        match number {
            Self::CSR => self.write_csr(value),
            Self::CONTROL => self.control = value,
            Self::FACTOR_1..=Self::FACTOR_8 => {
                let input = (number - Self::FACTOR_1) as usize;
                self.factors[input] = value;
                // [Registers.2] [Bytes.4a]
                self.counters[input] = if run.holds_byte_3() { value } else { self.counters[input] };
            }
            Self::ROC_ENABLE => self.roc_enable = value,
            Self::SYNC_INTERVAL => self.sync_interval = value,
            Self::T1 => self.t1 = Count40(value),
            Self::T2 => self.t2 = Count40(value),
            Self::T3 => self.t3 = Count40(value),
            Self::T4 => self.t4 = Count40(value),
            Self::T5 => self.t5 = Count20(value),
            Self::SCALER_0 | Self::SCALER_1 => {
                let scaler = (number - Self::SCALER_0) as usize;
                // [Registers.3] [Bytes.4a] [Bytes.6]
                self.scalers[scaler] = if run.holds_byte_3() { 0 } else { self.scalers[scaler] };
            }
            Self::TEST => self.write_test(value),
            _ => self.assign = value,
        }
    }

    /// Reads a register: the run of all four bytes. [Bytes.2] [Bytes.5a]
    pub fn read_register(&mut self, number: u32) -> Result<u32, u8> {
        self.read_bytes(number, 0, 4)
    }

    /// Reads the bytes of a register from `first` on, `count` of them, in place. Declines 1, 3, 7 in this order.
    /// [Declines.3a] [Declines.3b] [Bytes.7] [Bytes.11]
    pub fn read_bytes(&mut self, number: u32, first: u32, count: u32) -> Result<u32, u8> {
        self.not_spoiled()?;
        let stored = self.value_of(number).ok_or(decline::NUMBER)?;
        let run = Run::new(first, count)?;
        let value = match number {
            Self::SCALER_0 => self.read_scaler(0, run),
            Self::SCALER_1 => self.read_scaler(1, run),
            _ => stored,
        };
        Ok(run.cut(value))
    }

    /// A register's stored value, and STATE as the record stands; none where there is no such register, and for TEST.
    /// [Declines.3b] [State.8a] [Test.5b]
    pub(super) fn value_of(&self, number: u32) -> Option<u32> {
        Some(match number {
            Self::CSR => self.csr,
            Self::CONTROL => self.control,
            Self::FACTOR_1..=Self::FACTOR_8 => self.factors[(number - Self::FACTOR_1) as usize],
            Self::ROC_ENABLE => self.roc_enable,
            Self::SYNC_INTERVAL => self.sync_interval,
            Self::T1 => self.t1.0,
            Self::T2 => self.t2.0,
            Self::T3 => self.t3.0,
            Self::T4 => self.t4.0,
            Self::T5 => self.t5.0,
            Self::SCALER_0 => self.scalers[0],
            Self::SCALER_1 => self.scalers[1],
            Self::ASSIGN => self.assign,
            Self::STATE => self.state(),
            _ => return None,
        })
    }

    /// [CSRWrite.1]–[CSRWrite.3] [Test.10]
    fn write_csr(&mut self, value: u32) {
        if value & csr::INITIALIZE != 0 {
            *self = Self::fresh();
            return;
        }
        let before = self.csr;
        let set = value & csr::CONTROLS;
        let clear = (value >> csr::CLEAR_SHIFT) & csr::CONTROLS;
        let mut after = (before | set) & !clear;
        let go_rises = after & !before & csr::GO != 0;
        if go_rises || value & csr::CLEAR_STATUS != 0 {
            after &= !csr::STATUS;
        }
        self.csr = after;
        if value & csr::RESET != 0 {
            self.reset();
        }
    }

    /// [CSRWrite.2d] [Main.17] [Blind.3]; the user sync is one of the sequencers that go idle. What the latest tick
    /// brought and did is kept, and so are the latches and both modes; what waits is dropped. [State.3] [Bytes.5b]
    /// [Test.8b]
    fn reset(&mut self) {
        self.csr &= !csr::CLEARED_BY_RESET;
        self.counters = self.factors;
        self.scalers = [0; 2];
        self.sync_count = 0;
        self.user_sync_waiting = false;
        self.blind = 0;
        self.drop_waiting();
        self.branches = [Branch::fresh(), Branch::fresh(), Branch::fresh(), Branch::fresh()];
        self.idle_main();
    }
}
