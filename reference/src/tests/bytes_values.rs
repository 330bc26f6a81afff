//! Decline 5 on merged values, and the bytes of the CSR. [Bytes.3b] [Bytes.4b] [Bytes.7]

use super::bytes::RUNS;
use super::random::Random;
use super::*;

/// A write by a run to a register that holds this value; a declined one must leave the record.
fn takes(number: u32, stood: u32, run: (u32, u32), value: u32) -> Result<(), u8> {
    let mut unit = Unit::fresh(0);
    unit.write(number, stood);
    let before = unit.record.clone();
    let answer = unit.record.write_bytes(number, run.0, run.1, value);
    if answer.is_err() {
        assert_eq!(unit.record, before);
    }
    answer
}

/// The bits that a register takes, but for the codes of register 19. [Declines.2d]
fn width(number: u32) -> u32 {
    match number {
        0 => 0xBFFF_FFFF,
        1 => 0x9FFF,
        2..=5 => 0xF_FFFF,
        6..=9 => 0x3FFF,
        11..=15 => 0xFFFF,
        16 => 0xFF,
        19 => 0x3F,
        21 => 0x7FBD,
        _ => u32::MAX,
    }
}

#[test]
fn every_bit_in_every_run() {
    for number in (0..=19).chain([21]) {
        for (first, count, bits) in RUNS {
            for bit in 0..32 {
                let value = 1 << bit;
                let is_taken = value & bits == 0 || width(number) & value != 0; // [Bytes.7]
                let expected = if is_taken { Ok(()) } else { Err(5) };
                let answer = takes(number, 0, (first, count), value);
                assert_eq!(answer, expected, "register {number}, run {bits:08X}, bit {bit}");
            }
        }
    }
}

#[test]
fn zero_bytes_outside_a_narrow_register_are_taken() {
    for number in 0..=19 {
        let stood = if number == 0 { 0 } else { width(number) & 0x3F };
        for (first, count, bits) in RUNS {
            assert_eq!(takes(number, stood, (first, count), 0), Ok(())); // [Bytes.7]
            assert_eq!(takes(number, stood, (first, count), !bits), Ok(()), "bytes outside the run are ignored");
        }
    }
    assert_eq!(takes(Supervisor::T5, 0xFF, (2, 2), 0x0100), Err(5));
    assert_eq!(takes(Supervisor::T5, 0xFF, (0, 3), 0x00FF), Ok(()));
}

#[test]
fn the_two_widths_of_a_factor() {
    for (number, run, last) in [(2, (1, 1), 0x000F_0000), (5, (0, 2), 0x000F_0000), (6, (2, 1), 0x3F00)] {
        for stood in [0, 1, 0xFF] {
            assert_eq!(takes(number, stood, run, last), Ok(())); // [Widths.1]
            assert_eq!(takes(number, stood, run, last + (last & last.wrapping_neg())), Err(5));
            assert_eq!(takes(number, stood, run, 0x8000_0000 >> (8 * run.0)), Err(5));
        }
    }
}

#[test]
fn the_code_of_register_19_is_the_merged_one() {
    for code in 0..=0xFF {
        let listed = code <= 0x3F || (0x50..=0x5F).contains(&code); // [Assign.1]
        let expected = if listed { Ok(()) } else { Err(5) };
        for run in [(3, 1), (2, 2), (1, 3), (0, 4)] {
            assert_eq!(takes(Supervisor::ASSIGN, 0x5A, run, code), expected);
        }
        // Without BYTE(3) the code stays, and what stands for it in the value is ignored.
        for run in [(0, 1), (1, 1), (2, 1), (0, 2), (1, 2), (0, 3)] {
            assert_eq!(takes(Supervisor::ASSIGN, 0x5A, run, code), Ok(()));
        }
    }
}

/// A unit at work, with status bits set, counters on their way, counts and latches.
fn at_work() -> Unit {
    let mut unit = Unit::running(class_2(5, 1), &[(Supervisor::FACTOR_1, 0x1_0203), (9, 7)], csr::GO | 0xF0);
    unit.tick(0x883, line::INHIBIT, 0);
    unit.tick(0x883, 0, 0);
    unit.record.scalers = [0x1234_5678, 0x9ABC_DEF0];
    unit.record.latches = [3, 4];
    assert!(unit.has(csr::INHIBIT) && unit.record.main == MainState::Wait2);
    unit
}

#[test]
fn csr_bytes_that_lack_count_as_0() {
    let mut random = Random(0x0F1E_2D3C_4B5A_6978);
    let mut values: Vec<u32> = (0..32).map(|bit| 1 << bit).collect();
    values.extend([0, u32::MAX, 0x8FFF_CFFF, 0x8FFF_4FFF, 0x0FFF_0FFF, 0x0001_0001]);
    values.extend((0..300).map(|_| random.next() & 0x8FFF_4FFF));
    for value in values {
        for (first, count, bits) in RUNS {
            let (mut unit, mut whole) = (at_work(), at_work());
            let answer = unit.record.write_bytes(Supervisor::CSR, first, count, value);
            assert_eq!(answer, whole.record.write_register(Supervisor::CSR, value & bits)); // [Bytes.3b]
            assert_eq!(unit.record, whole.record, "{value:08X}, run {bits:08X}");
        }
    }
}

#[test]
fn stored_csr_bits_are_not_written_again() {
    // Status bits 16–20 stand where a written value clears bits 0–4.
    for (first, count, _) in RUNS {
        let mut unit = Unit::fresh(0);
        unit.record.csr = csr::STORED;
        unit.write_run(Supervisor::CSR, (first, count), 0);
        assert_eq!(unit.record.csr, csr::STORED); // [Bytes.3b]
    }
}

#[test]
fn csr_bits_act_where_the_run_holds_them() {
    for (first, count, bits) in RUNS {
        let after = |value: u32| {
            let mut unit = at_work();
            unit.write_run(Supervisor::CSR, (first, count), value);
            unit.record
        };
        let before = at_work().record;
        // GO off by bit 16, the status bits by bit 31, use of T5 by bit 8.
        assert_eq!(after(csr::GO << 16).csr & csr::GO == 0, bits & 0x00FF_0000 != 0);
        assert_eq!(after(csr::CLEAR_STATUS).csr & csr::STATUS == 0, bits & 0xFF00_0000 != 0); // [CSRWrite.2c]
        assert_eq!(after(csr::USE_T5).csr & csr::USE_T5 != 0, bits & 0x0000_FF00 != 0);

        let reset = after(csr::RESET);
        if bits & csr::RESET == 0 {
            assert_eq!(reset, before);
        } else {
            let loaded = (reset.counters, reset.scalers, reset.latches); // [Bytes.4b]
            assert_eq!(loaded, (before.factors, [0; 2], before.latches));
            assert_eq!((reset.main, reset.csr), (MainState::Idle, before.csr & !0xF));
        }
        let initialized = if bits & csr::INITIALIZE == 0 { before } else { Supervisor::fresh() };
        assert_eq!(after(csr::INITIALIZE), initialized); // [CSRWrite.1]
    }
}

#[test]
fn go_by_one_byte_rises_and_clears_the_status_bits() {
    let mut unit = Unit::fresh(0);
    unit.record.csr = csr::STATUS | 0xF0;
    unit.write_run(Supervisor::CSR, (3, 1), 0xFFFF_FF00 | csr::GO); // [CSRWrite.2b]
    assert_eq!(unit.record.csr, csr::GO | 0xF0);
    unit.write_run(Supervisor::CSR, (1, 1), 0x0011_0000);
    assert_eq!(unit.record.csr, 0xE0);
}
