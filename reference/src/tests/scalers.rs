//! Scaler 0 and each group of scaler 1's assign codes. [Assign.1]–[Assign.4]

use super::*;

/// What scaler 1 counts under each code while `run` makes its ticks.
fn counts(word: u16, registers: &[(u32, u32)], csr_bits: u32, codes: &[u32], run: impl Fn(&mut Unit)) -> Vec<u32> {
    codes
        .iter()
        .map(|&code| {
            let mut unit = Unit::running(word, registers, csr_bits);
            unit.write(Supervisor::ASSIGN, code);
            run(&mut unit);
            unit.read(Supervisor::SCALER_1)
        })
        .collect()
}

const EACH_GROUP: [u32; 9] = [0x00, 0x0C, 0x0D, 0x0E, 0x0F, 0x10, 0x20, 0x30, 0x50];

#[test]
fn passed_pulses_lost_ones_too() {
    // Pulses on inputs 1 and 2, factor 1 on input 1, GO clear with prescales open: lost. [Open: C1]
    let codes: Vec<u32> = (0x00..=0x0F).collect();
    let counted = counts(0, &[(Supervisor::CONTROL, 0x9FFE), (Supervisor::FACTOR_1, 1)], 0, &codes, |unit| {
        for _ in 0..4 {
            unit.tick(3, 0, 0);
        }
        unit.quiet_ticks(3);
    });
    assert_eq!(counted, [4, 2, 4, 0, 0, 0, 0, 0, 0, 0, 0, 0, 0, 0, 0, 0]);
}

#[test]
fn each_input_has_its_code() {
    for input in 0..12 {
        let codes: Vec<u32> = (0x01..=0x0C).collect();
        let counted = counts(0, &[], csr::GO, &codes, |unit| {
            unit.tick(1 << input, 0, 0);
        });
        let expected: Vec<u32> = (0..12).map(|i| u32::from(i == input)).collect();
        assert_eq!(counted, expected);
    }
}

#[test]
fn stopped_and_scaled_pulses_do_not_count() {
    let codes: Vec<u32> = (0x00..=0x0F).collect();
    let stopped = counts(0, &[], 0, &codes, |unit| {
        unit.tick(0xFFF, 0, 0);
    });
    assert_eq!(stopped, [0; 16]);
    let scaled = counts(0, &[(Supervisor::FACTOR_1, 9)], csr::GO, &codes, |unit| {
        unit.tick(1, 0, 0);
    });
    assert_eq!(scaled, [0; 16]);
}

#[test]
fn latched_and_rejected() {
    let counted = counts(0x0001, &[], csr::GO, &EACH_GROUP, |unit| {
        unit.tick(0x801, line::FRONT_BUSY, 0); // passed, but not latched
        unit.tick(0x801, 0, 0);
    });
    assert_eq!(counted, [2, 2, 1, 0, 1, 0, 0, 0, 0]);
}

#[test]
fn latched_and_accepted() {
    let counted = counts(class_1(5, 1), &[], csr::GO, &EACH_GROUP, |unit| {
        unit.tick(0x801, 0, 0);
        unit.quiet_ticks(9);
    });
    assert_eq!(counted, [1, 1, 1, 1, 0, 0, 0, 0, 0]);
}

#[test]
fn level_2_fails_count_where_wait_2_acts() {
    let fails = line::LEVEL_2_FAIL | line::LEVEL_3_FAIL;
    let counted = counts(class_2(5, 1), &[], csr::GO, &EACH_GROUP, |unit| {
        unit.tick(0, fails, 0);
        unit.tick(1, fails, 0); // the accepting tick ignores them
        unit.tick(0, line::LEVEL_3_FAIL, 0);
        unit.tick(0, fails, 0); // acted on
        unit.tick(0, fails, 0); // in Clear
        unit.tick(0, fails, 0);
        unit.tick(0, fails, 0);
    });
    assert_eq!(counted, [1, 0, 1, 1, 0, 1, 0, 0, 0]); // [Assign.2]
}

#[test]
fn level_3_fails_count_where_wait_3_acts() {
    let counted = counts(class_3(5, 1), &[], csr::GO, &EACH_GROUP, |unit| {
        unit.accept();
        unit.tick(0, line::LEVEL_2_PASS | line::LEVEL_3_FAIL, 0);
        unit.tick(0, line::LEVEL_2_FAIL, 0);
        unit.tick(0, line::LEVEL_3_FAIL, 0);
        unit.tick(0, line::LEVEL_3_FAIL, 0);
    });
    assert_eq!(counted, [1, 0, 1, 1, 0, 0, 1, 0, 0]); // [Assign.2]
}

#[test]
fn late_fails_count_for_their_level_and_for_late() {
    let counted = counts(class_2(5, 1), &[], csr::GO | csr::USE_T1, &EACH_GROUP, |unit| {
        unit.accept();
        unit.tick(0, line::LEVEL_2_FAIL, 0);
        unit.tick(0, line::LEVEL_2_FAIL, 0); // Front loads the late event: no fail acted on
        unit.quiet_ticks(5);
    });
    assert_eq!(counted, [1, 0, 1, 1, 0, 1, 0, 1, 0]);
    let counted = counts(class_3(5, 1), &[], csr::GO | csr::USE_T1, &EACH_GROUP, |unit| {
        unit.accept();
        unit.tick(0, line::LEVEL_2_PASS, 0);
        unit.tick(0, line::LEVEL_3_FAIL, 0);
        unit.quiet_ticks(5);
    });
    assert_eq!(counted, [1, 0, 1, 1, 0, 0, 1, 1, 0]);
}

#[test]
fn sync_words_count_tags_included() {
    let codes = [0x4F + 1, 0x5F];
    let counted =
        counts(class_1(5, 1), &[(Supervisor::SYNC_INTERVAL, 2)], csr::GO | csr::ENABLE_SYNC, &codes, |unit| {
            for _ in 0..4 {
                unit.accept();
                unit.run_to_idle();
            }
            unit.write(Supervisor::CSR, csr::FORCE_SYNC);
            unit.quiet_ticks(9);
        });
    assert_eq!(counted, [3, 3]);
}

#[test]
fn all_codes_of_a_group_count_alike() {
    let run = |unit: &mut Unit| {
        for _ in 0..3 {
            unit.accept();
            unit.tick(0, line::LEVEL_2_PASS, 0);
            unit.tick(0, line::LEVEL_3_FAIL, 0);
            for _ in 0..9 {
                unit.quiet();
            }
            unit.accept();
            unit.tick(0, line::LEVEL_2_FAIL, 0);
            for _ in 0..9 {
                unit.quiet();
            }
        }
        unit.write(Supervisor::CSR, csr::FORCE_SYNC | csr::ENABLE_SYNC);
        unit.quiet();
    };
    // With T1 = 1 in use the level 3 fails, at age 2, are late and the level 2 fails, at age 1, are not.
    let registers = [(Supervisor::T1, 1)];
    for (codes, expected) in [(0x10..=0x1F, 3), (0x20..=0x2F, 3), (0x30..=0x3F, 3), (0x50..=0x5F, 1)] {
        let codes: Vec<u32> = codes.collect();
        let counted = counts(class_3(5, 1), &registers, csr::GO | csr::USE_T1, &codes, run);
        assert_eq!(counted, [expected; 16], "group {:X}", codes[0]);
    }
}

#[test]
fn at_most_one_a_tick() {
    let counted = counts(0, &[], csr::GO, &[0x00], |unit| {
        unit.tick(0xFFF, 0, 0); // [Assign.3a]
    });
    assert_eq!(counted, [1]);
}

#[test]
fn scalers_run_on_to_0() {
    let mut unit = Unit::running(class_1(5, 1), &[], csr::GO);
    unit.record.scalers = [u32::MAX, u32::MAX];
    unit.accept();
    assert_eq!(unit.record.scalers, [u32::MAX, 0]); // [Assign.3b]
    unit.outcome();
    assert_eq!(unit.record.scalers, [0, 0]);
}

#[test]
fn scaler_0_counts_loaded_events() {
    let mut unit = Unit::running(class_2(5, 1), &[], csr::GO | csr::ENABLE_SYNC);
    unit.accept();
    unit.tick(0, line::LEVEL_2_FAIL, 0);
    unit.run_to_idle();
    assert_eq!(unit.read(Supervisor::SCALER_0), 0, "a cleared event is not loaded"); // [Assign.4]
    unit.accept();
    unit.tick(0, line::LEVEL_2_PASS, 0);
    unit.outcome();
    assert_eq!(unit.read(Supervisor::SCALER_0), 1);
}

#[test]
fn any_write_zeroes_a_scaler() {
    let mut unit = Unit::running(0, &[], csr::GO);
    unit.record.scalers = [7, 8];
    unit.write(Supervisor::SCALER_0, 0xFFFF_FFFF); // taken while active [Registers.3] [Open: A1]
    assert_eq!(unit.record.scalers, [0, 8]);
    unit.write(Supervisor::SCALER_1, 5);
    assert_eq!(unit.record.scalers, [0, 0]);
}

#[test]
fn only_listed_codes_are_taken() {
    let mut unit = Unit::fresh(0);
    for code in 0..=0x1FF {
        let listed = code <= 0x3F || (0x50..=0x5F).contains(&code); // [Assign.1] [Declines.2d]
        let answer = unit.record.write_register(Supervisor::ASSIGN, code);
        assert_eq!(answer, if listed { Ok(()) } else { Err(5) }, "code {code:X}");
    }
    assert_eq!(unit.read(Supervisor::ASSIGN), 0x5F);
    assert_eq!(unit.record.write_register(Supervisor::ASSIGN, 0x8000_0000), Err(5));
}
