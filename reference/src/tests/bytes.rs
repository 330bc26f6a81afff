//! Byte-wise access to the registers: the ten runs, merged values, what is no run, and the order of the declines.
//! [Bytes.2] [Bytes.3a] [Bytes.7] [Bytes.11]

use super::declines::{active, spoiled, ways_to_be_active};
use super::*;

/// The ten accesses of source document 001: first byte, count, and the bits that they reach. [Bytes.2]
pub(super) const RUNS: [(u32, u32, u32); 10] = [
    (0, 1, 0xFF00_0000),
    (1, 1, 0x00FF_0000),
    (2, 1, 0x0000_FF00),
    (3, 1, 0x0000_00FF),
    (0, 2, 0xFFFF_0000),
    (1, 2, 0x00FF_FF00),
    (2, 2, 0x0000_FFFF),
    (0, 3, 0xFFFF_FF00),
    (1, 3, 0x00FF_FFFF),
    (0, 4, 0xFFFF_FFFF),
];

/// Empty ones, ones that leave the four bytes, and sums that no 32 bits hold. [Bytes.11]
pub(super) const NO_RUNS: [(u32, u32); 20] = [
    (0, 0),
    (1, 0),
    (3, 0),
    (4, 0),
    (5, 0),
    (u32::MAX, 0),
    (3, 2),
    (2, 3),
    (1, 4),
    (0, 5),
    (0, u32::MAX),
    (1, u32::MAX),
    (3, u32::MAX - 2),
    (4, 1),
    (4, u32::MAX),
    (5, 1),
    (u32::MAX, 1),
    (u32::MAX, 2),
    (u32::MAX - 3, 8),
    (u32::MAX, u32::MAX),
];

/// A register of each kind: what stands there, and what is written over it. Any bytes of both are taken together.
pub(super) const KINDS: [(u32, u32, u32); 17] = [
    (Supervisor::CONTROL, 0x8AAA, 0x1555),
    (Supervisor::FACTOR_1, 0xA_5A5A, 0x5_A5A5),
    (3, 0xF_FFFF, 0),
    (4, 0, 0xF_FFFF),
    (5, 0x1_0203, 0xA_0B0C),
    (6, 0x2A2A, 0x1515),
    (7, 0x3FFF, 0),
    (8, 0, 0x3FFF),
    (Supervisor::FACTOR_8, 0x0102, 0x2A0B),
    (Supervisor::ROC_ENABLE, 0x1234_5678, 0x89AB_CDEF),
    (Supervisor::SYNC_INTERVAL, 0xFF00, 0x00FF),
    (Supervisor::T1, 0x1234, 0xABCD),
    (Supervisor::T2, 0xFFFF, 0x8001),
    (Supervisor::T3, 0x0FF0, 0xF00F),
    (Supervisor::T4, 0x5555, 0xAAAA),
    (Supervisor::T5, 0x5A, 0xA5),
    (Supervisor::ASSIGN, 0x15, 0x5A),
];

impl Unit {
    #[track_caller]
    pub(super) fn write_run(&mut self, number: u32, (first, count): (u32, u32), value: u32) {
        let answer = self.record.write_bytes(number, first, count, value);
        assert_eq!(answer, Ok(()), "write {value:X} to register {number}, {count} bytes from {first} on");
    }

    #[track_caller]
    pub(super) fn read_run(&mut self, number: u32, (first, count): (u32, u32)) -> u32 {
        self.record.read_bytes(number, first, count).unwrap()
    }
}

#[test]
fn a_write_keeps_the_bytes_it_lacks() {
    for (number, stood, written) in KINDS {
        for (first, count, bits) in RUNS {
            for junk in [0, u32::MAX, 0xDEAD_BEEF] {
                let mut unit = Unit::fresh(0);
                unit.write(number, stood);
                unit.write_run(number, (first, count), written & bits | junk & !bits);
                let expected = written & bits | stood & !bits; // [Bytes.3a]
                assert_eq!(unit.read(number), expected, "register {number}, run {bits:08X}");
            }
        }
    }
}

#[test]
fn a_write_changes_its_register_alone() {
    for (number, stood, written) in KINDS {
        for (first, count, bits) in RUNS {
            let mut unit = Unit::fresh(0);
            unit.write(number, stood);
            let mut other = Unit::fresh(0);
            other.write(number, written & bits | stood & !bits);
            unit.write_run(number, (first, count), written);
            unit.record.counters = other.record.counters; // [Bytes.4a] has tests of its own
            assert_eq!(unit.record, other.record, "register {number}, run {bits:08X}");
        }
    }
}

#[test]
fn a_read_gives_0_outside_the_run() {
    for (number, stood, _) in KINDS {
        for (first, count, bits) in RUNS {
            let mut unit = Unit::fresh(0);
            unit.write(number, stood);
            let before = unit.record.clone();
            assert_eq!(unit.read_run(number, (first, count)), stood & bits); // [Bytes.7]
            assert_eq!(unit.record, before); // [Declines.3b]
        }
    }
    for (first, count, bits) in RUNS {
        let mut unit = Unit::running(0, &[(Supervisor::ROC_ENABLE, u32::MAX)], csr::GO | 0xFE0);
        unit.tick(1, line::ALL, 0x0F0F_FF00);
        let (before, state) = (unit.record.clone(), unit.read(Supervisor::STATE));
        assert_eq!(unit.read_run(Supervisor::CSR, (first, count)), before.csr & bits);
        assert_eq!(unit.read_run(Supervisor::STATE, (first, count)), state & bits);
        assert_eq!(unit.record, before);
    }
}

#[test]
fn a_sixteen_bit_master_writes_and_reads_any_register() {
    for (number, stood, written) in KINDS {
        let mut unit = Unit::fresh(0);
        unit.write(number, stood);
        unit.write_run(number, (0, 2), written); // [Bytes.1]
        unit.write_run(number, (2, 2), written);
        assert_eq!(unit.read_run(number, (0, 2)) | unit.read_run(number, (2, 2)), written);
    }
}

#[test]
fn what_is_no_run_gets_7() {
    for (first, count) in NO_RUNS {
        for number in 0..=19 {
            for value in [0, 1, u32::MAX, csr::INITIALIZE] {
                let mut record = Supervisor { scalers: [5, 6], ..Supervisor::fresh() };
                let before = record.clone();
                assert_eq!(record.write_bytes(number, first, count, value), Err(7)); // [Bytes.11]
                assert_eq!(record.read_bytes(number, first, count), Err(7));
                assert_eq!(record, before, "no latch either");
            }
        }
        assert_eq!(Supervisor::fresh().read_bytes(Supervisor::STATE, first, count), Err(7));
    }
}

#[test]
fn only_ten_pairs_are_runs() {
    let numbers: Vec<u32> = (0..10).chain(u32::MAX - 9..=u32::MAX).collect();
    for &first in &numbers {
        for &count in &numbers {
            let is_run = RUNS.iter().any(|&(f, c, _)| (f, c) == (first, count)); // [Bytes.2]
            let expected = if is_run { Ok(0) } else { Err(7) };
            assert_eq!(Supervisor::fresh().read_bytes(Supervisor::CONTROL, first, count), expected);
            let expected = if is_run { Ok(()) } else { Err(7) };
            assert_eq!(Supervisor::fresh().write_bytes(Supervisor::CONTROL, first, count, 0), expected);
        }
    }
}

#[test]
fn the_order_of_the_declines() {
    for (first, count) in NO_RUNS {
        for number in 0..=22 {
            // 1 comes first. [Declines.2a] [Declines.3a]
            let mut record = spoiled();
            assert_eq!(record.write_bytes(number, first, count, u32::MAX), Err(1));
            assert_eq!(record.read_bytes(number, first, count), Err(1));
            assert_eq!(record, spoiled());
        }
        for number in [20, 22, 255, u32::MAX] {
            // 3 before 7. [Bytes.11] [State.8b]
            assert_eq!(active().write_bytes(number, first, count, u32::MAX), Err(3));
            let expected = if number == Supervisor::STATE { 7 } else { 3 };
            assert_eq!(active().read_bytes(number, first, count), Err(expected));
        }
        // TEST is written only. [Test.1] [Test.5b]
        assert_eq!(active().write_bytes(Supervisor::TEST, first, count, u32::MAX), Err(7));
        assert_eq!(active().read_bytes(Supervisor::TEST, first, count), Err(3));
        for way in ways_to_be_active() {
            // 7 before 4, so that no status bit is set, and before 5.
            let mut record = way.clone();
            assert_eq!(record.write_bytes(Supervisor::T5, first, count, u32::MAX), Err(7));
            assert_eq!(record.write_bytes(Supervisor::CSR, first, count, 1 << 30), Err(7));
            assert_eq!(record.read_bytes(Supervisor::T5, first, count), Err(7));
            assert_eq!(record, way);
        }
    }
}

#[test]
fn while_active_4_comes_before_5() {
    for way in ways_to_be_active() {
        for (first, count, bits) in RUNS {
            for number in 1..=16 {
                let mut record = way.clone();
                assert_eq!(record.write_bytes(number, first, count, bits), Err(4)); // [Declines.2c]
                assert_eq!(record, Supervisor { csr: way.csr | csr::WRITE_ERROR, ..way.clone() });
            }
            for number in [17, 18, 19] {
                let mut record = way.clone();
                assert_eq!(record.write_bytes(number, first, count, 0), Ok(()));
                assert_eq!(record, way);
            }
        }
    }
}
