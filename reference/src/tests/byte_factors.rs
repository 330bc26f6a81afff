//! Factor writes by bytes: which of them load the counter, and counters above their factors. [Bytes.4a] [Bytes.9]

use super::bytes::RUNS;
use super::*;

/// Prescales open, so that pulses are counted and the module stays inactive. [Pulses.2]
fn open(number: u32, factor: u32) -> Unit {
    let mut unit = Unit::fresh(0);
    unit.write(Supervisor::CONTROL, control::OPEN_PRESCALES | ALL_ENABLED);
    unit.write(number, factor);
    unit
}

impl Unit {
    /// How many pulses on an input are scaled away before one passes.
    #[track_caller]
    fn scaled_before_a_pass(&mut self, input: usize) -> u32 {
        for scaled in 0..=0x2000 {
            let answer = self.tick(1 << input, 0, 0);
            if answer.scaled == 0 {
                assert_eq!(answer.lost, 1 << input); // [Pulses.4]
                return scaled;
            }
        }
        panic!("no pulse passes");
    }
}

#[test]
fn only_a_run_with_byte_3_loads() {
    for input in 0..8 {
        let number = Supervisor::FACTOR_1 + input as u32;
        for (first, count, bits) in RUNS {
            let mut unit = open(number, 0x0105);
            unit.tick(1 << input, 0, 0);
            unit.write_run(number, (first, count), 0x0203);
            let factor = 0x0203 & bits | 0x0105 & !bits;
            // The merged factor is loaded, not the written bytes alone. [Bytes.4a]
            let counter = if bits & 0xFF != 0 { factor } else { 0x0104 };
            assert_eq!((unit.record.factors[input], unit.record.counters[input]), (factor, counter), "{bits:08X}");
            assert!(unit.record.factors.iter().sum::<u32>() == factor, "no other factor");
        }
    }
}

#[test]
fn a_counter_above_its_factor_counts_down() {
    for input in 0..8 {
        let number = Supervisor::FACTOR_1 + input as u32;
        let mut unit = open(number, 0x0105);
        unit.write_run(number, (2, 1), 0);
        assert_eq!((unit.record.factors[input], unit.record.counters[input]), (5, 0x0105));
        assert!(!unit.record.is_spoiled()); // [Bytes.9]
        assert_eq!(unit.scaled_before_a_pass(input), 0x0105); // [Pulses.3]
        assert_eq!(unit.record.counters[input], 5); // [Pulses.4]
        assert_eq!(unit.scaled_before_a_pass(input), 5);
    }
}

#[test]
fn a_factor_raised_without_byte_3_waits_for_the_pass() {
    let mut unit = open(Supervisor::FACTOR_8, 2);
    unit.write_run(Supervisor::FACTOR_8, (2, 1), 0x0100);
    assert_eq!(unit.scaled_before_a_pass(7), 2); // [Bytes.4a]
    assert_eq!(unit.scaled_before_a_pass(7), 0x0102);
}

#[test]
fn a_factor_left_as_it_was_leaves_the_counter() {
    let mut unit = open(Supervisor::FACTOR_1, 0x1_0203);
    unit.tick(1, 0, 0);
    let before = unit.record.clone();
    for (first, count, value) in [(0, 3, 0x1_0200), (1, 2, 0x1_0277), (2, 1, 0x0200), (0, 1, 0x00FF_FFFF)] {
        unit.write_run(Supervisor::FACTOR_1, (first, count), value);
        assert_eq!(unit.record, before);
    }
    // With BYTE(3) the same factor is loaded.
    unit.write_run(Supervisor::FACTOR_1, (3, 1), 0x03);
    assert_eq!(unit.record, Supervisor { counters: before.factors, ..before });
}

#[test]
fn the_high_bytes_first_then_byte_3() {
    // The order that source document 001 asks of its users.
    let mut unit = open(Supervisor::FACTOR_1, 7);
    for (byte, value) in [(0, 0), (1, 0x000A_0000), (2, 0x0B00)] {
        unit.write_run(Supervisor::FACTOR_1, (byte, 1), value);
        assert_eq!(unit.record.counters[0], 7);
    }
    unit.write_run(Supervisor::FACTOR_1, (3, 1), 0x0C);
    assert_eq!((unit.record.factors[0], unit.record.counters[0]), (0xA_0B0C, 0xA_0B0C));
}

#[test]
fn a_declined_write_changes_neither() {
    for input in 0..8 {
        let number = Supervisor::FACTOR_1 + input as u32;
        let mut unit = open(number, 5);
        let before = unit.record.clone();
        let bad = if input < 4 { 0x0010_0000 } else { 0x4000 };
        for (first, count, _) in RUNS.into_iter().filter(|&(_, _, bits)| bits & bad != 0) {
            assert_eq!(unit.record.write_bytes(number, first, count, bad), Err(5));
            // [Bytes.7]
        }
        assert_eq!(unit.record, before);
        unit.write(Supervisor::CSR, csr::GO);
        for (first, count, _) in RUNS {
            assert_eq!(unit.record.write_bytes(number, first, count, 0), Err(4));
            // [Declines.2c]
        }
        assert_eq!((unit.record.factors, unit.record.counters), (before.factors, before.counters));
    }
}

#[test]
fn reset_loads_what_a_write_did_not() {
    for run in [(2, 1), (1, 2), (0, 3), (2, 2), (0, 4)] {
        let mut unit = open(Supervisor::FACTOR_1, 0x0105);
        unit.write_run(Supervisor::FACTOR_1, (2, 1), 0);
        assert_eq!(unit.record.counters[0], 0x0105);
        unit.write_run(Supervisor::CSR, run, csr::RESET); // [Bytes.4b]
        assert_eq!(unit.record.counters[0], 5);
    }
}

#[test]
fn the_widest_counter_over_factor_0() {
    for (input, widest) in [(0, 0xF_FFFF), (3, 0xF_FFFF), (4, 0x3FFF), (7, 0x3FFF)] {
        let mut unit = open(Supervisor::FACTOR_1 + input as u32, widest);
        unit.write_run(Supervisor::FACTOR_1 + input as u32, (0, 3), 0);
        assert_eq!((unit.record.factors[input], unit.record.counters[input]), (0xFF, widest));
        assert_eq!(unit.tick(1 << input, 0, 0).scaled, 1 << input); // [Bytes.9]
        assert_eq!(unit.record.counters[input], widest - 1);
        unit.record.counters[input] = widest + 1;
        assert!(unit.record.is_spoiled());
    }
}
