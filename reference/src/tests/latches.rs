//! The latches behind the scalers, and scaler writes by bytes. [Bytes.4a] [Bytes.5a] [Bytes.5b] [Bytes.6]

use super::bytes::{NO_RUNS, RUNS};
use super::*;

/// A fresh unit with these scalers and latches.
fn holding(scalers: [u32; 2], latches: [u32; 2]) -> Unit {
    let mut unit = Unit::fresh(0);
    (unit.record.scalers, unit.record.latches) = (scalers, latches);
    unit
}

const SCALERS: [u32; 2] = [0x1234_5678, 0x9ABC_DEF0];
const LATCHES: [u32; 2] = [0x0F1E_2D3C, 0x4B5A_6978];

#[test]
fn a_read_with_byte_3_latches_and_others_give_the_latch() {
    for number in [17, 18] {
        let scaler = number as usize - 17;
        for (first, count, bits) in RUNS {
            let mut unit = holding(SCALERS, LATCHES);
            let mut latches = LATCHES;
            if bits & 0xFF != 0 {
                latches[scaler] = SCALERS[scaler]; // the whole count [Bytes.5a]
            }
            assert_eq!(unit.read_run(number, (first, count)), latches[scaler] & bits); // [Bytes.5b] [Bytes.7]
            assert_eq!(unit.record, holding(SCALERS, latches).record, "nothing else");
        }
        let mut unit = holding(SCALERS, LATCHES);
        assert_eq!(unit.read(number), SCALERS[scaler], "the plain read too"); // [Bytes.5a]
        assert_eq!(unit.record.latches[scaler], SCALERS[scaler]);
        assert_eq!(unit.record.latches[1 - scaler], LATCHES[1 - scaler]);
    }
}

#[test]
fn a_fresh_latch_is_0() {
    for number in [17, 18] {
        let mut unit = holding(SCALERS, [0; 2]);
        assert_eq!(unit.read_run(number, (0, 3)), 0); // [Registers.4] [Bytes.5b]
        assert_eq!(unit.record.latches, [0; 2]);
    }
}

#[test]
fn a_sixteen_bit_master_reads_one_count() {
    // The count runs on between the two reads, into the upper half. [Bytes.1] [Bytes.5a]
    let mut unit = Unit::running(0, &[], csr::GO);
    unit.record.scalers[1] = 0x0001_FFFF;
    assert_eq!(unit.read_run(Supervisor::SCALER_1, (2, 2)), 0xFFFF);
    unit.tick(1, 0, 0);
    assert_eq!(unit.record.scalers[1], 0x0002_0000);
    assert_eq!(unit.read_run(Supervisor::SCALER_1, (0, 2)), 0x0001_0000);
    assert_eq!(unit.read_run(Supervisor::SCALER_1, (2, 1)), 0xFF00);
    assert_eq!(unit.read(Supervisor::SCALER_1), 0x0002_0000);
    assert_eq!(unit.read_run(Supervisor::SCALER_1, (0, 3)), 0x0002_0000);
}

#[test]
fn ticks_keep_the_latches() {
    let mut unit = Unit::running(class_1(5, 1), &[], csr::GO);
    unit.record.latches = LATCHES;
    for _ in 0..40 {
        unit.tick(0xFFF, line::INHIBIT, u32::MAX);
        unit.tick(0xFFF, 0, 0);
    }
    assert!(unit.record.scalers[0] > 3 && unit.record.scalers[1] > 3);
    assert_eq!(unit.record.latches, LATCHES); // [Bytes.5a]
}

#[test]
fn only_a_scaler_write_with_byte_3_zeroes() {
    for number in [17, 18] {
        let scaler = number as usize - 17;
        for (first, count, bits) in RUNS {
            for value in [0, 1, u32::MAX, !bits] {
                let mut unit = holding(SCALERS, LATCHES);
                unit.write_run(number, (first, count), value); // any value [Registers.3]
                let mut scalers = SCALERS;
                if bits & 0xFF != 0 {
                    scalers[scaler] = 0; // [Bytes.4a]
                }
                assert_eq!(unit.record, holding(scalers, LATCHES).record); // [Bytes.5b] [Bytes.6]
            }
        }
    }
}

#[test]
fn only_initialize_and_a_fresh_record_zero_the_latches() {
    let mut unit = holding(SCALERS, LATCHES);
    for value in [csr::RESET, csr::RESET | csr::GO, csr::CLEAR_STATUS, csr::GO, csr::GO << 16] {
        unit.write(Supervisor::CSR, value);
        assert_eq!(unit.record.latches, LATCHES); // [Bytes.5b]
    }
    for number in 1..=19 {
        unit.write(number, 0);
        unit.write_run(number, (3, 1), 0);
        assert_eq!(unit.record.latches, LATCHES);
    }
    assert_eq!(unit.read_run(Supervisor::SCALER_0, (0, 3)), LATCHES[0] & !0xFF, "RESET and writes keep it");
    for run in [(2, 1), (1, 2), (0, 3), (0, 4)] {
        let mut unit = holding(SCALERS, LATCHES);
        unit.write_run(Supervisor::CSR, run, csr::INITIALIZE);
        assert_eq!(unit.record, Supervisor::fresh()); // [Bytes.5b] [CSRWrite.1]
    }
}

#[test]
fn other_reads_latch_nothing() {
    for number in (0..=20).filter(|number| !matches!(number, 17 | 18)) {
        for (first, count, _) in RUNS {
            let mut unit = holding(SCALERS, LATCHES);
            unit.read_run(number, (first, count)); // [Bytes.5a]
            assert_eq!(unit.record, holding(SCALERS, LATCHES).record, "register {number}");
        }
    }
}

#[test]
fn declined_reads_latch_nothing() {
    let mut unit = holding(SCALERS, LATCHES);
    for number in [17, 18] {
        for (first, count) in NO_RUNS {
            assert_eq!(unit.record.read_bytes(number, first, count), Err(7)); // [Bytes.11]
        }
    }
    assert_eq!(unit.record.read_register(22), Err(3));
    assert_eq!(unit.record, holding(SCALERS, LATCHES).record);
    unit.record.age = Supervisor::AGE_LIMIT + 1;
    assert_eq!(unit.record.read_register(17), Err(1)); // [Declines.3a]
    assert_eq!(unit.record.latches, LATCHES);
}

#[test]
fn scalers_are_read_and_written_while_active() {
    let mut unit = Unit::running(0, &[], csr::GO);
    unit.record.scalers = SCALERS;
    assert_eq!(unit.read_run(18, (3, 1)), 0xF0);
    unit.write_run(18, (0, 3), 0); // [Declines.2c] names 1–16
    assert_eq!((unit.record.scalers, unit.record.latches), (SCALERS, [0, SCALERS[1]]));
    unit.write_run(18, (3, 1), 0);
    assert_eq!((unit.record.scalers, unit.record.latches), ([SCALERS[0], 0], [0, SCALERS[1]]));
    assert_eq!(unit.read_run(18, (0, 1)), 0x9A00_0000, "the count from before the write");
}

#[test]
fn scalers_of_any_bytes_get_no_5() {
    for (first, count, _) in RUNS {
        for value in [0, 0x8000_0000, u32::MAX] {
            let mut unit = holding(SCALERS, LATCHES);
            unit.write_run(17, (first, count), value); // [Registers.3]
        }
    }
}
