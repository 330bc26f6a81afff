//! P1–P9 and the four misreadings. [Bench.1]–[Bench.10] [Blind.5]

use super::*;

#[test]
fn p1_factor_0_passes_each_pulse() {
    for input in 0..8 {
        let mut unit = Unit::running(0, &[(Supervisor::FACTOR_1 + input, 0)], csr::GO); // [Bench.1]
        for _ in 0..5 {
            let answer = unit.tick(1 << input, 0, 0);
            assert_eq!((answer.scaled, answer.lost | answer.rejected), (0, 1 << input));
        }
    }
}

#[test]
fn p2_factor_2_passes_the_third_and_sixth() {
    for input in 0..8 {
        let mut unit = Unit::running(0, &[(Supervisor::FACTOR_1 + input, 2)], csr::GO); // [Bench.2]
        let bit = 1 << input;
        let passed: Vec<bool> = (0..6)
            .map(|_| {
                let answer = unit.tick(bit, 0, 0);
                assert_eq!(u32::from(answer.scaled | answer.rejected), bit);
                answer.rejected != 0
            })
            .collect();
        assert_eq!(passed, [false, false, true, false, false, true]);
    }
}

#[test]
fn p3_open_prescales_without_go_loses() {
    let mut unit = Unit::fresh(class_1(5, 1)); // [Bench.3]
    unit.write(Supervisor::CONTROL, control::OPEN_PRESCALES | ALL_ENABLED);
    let answer = unit.tick(1, 0, 0);
    assert_eq!((answer.stopped, answer.scaled, answer.lost), (0, 0, 1));
    assert_eq!(unit.record.main, MainState::Idle);
}

#[test]
fn p4_word_without_class_or_without_ok_rejects() {
    for word in [0x0001, 0x0002] {
        let mut unit = Unit::running(word, &[], csr::GO); // [Bench.4]
        let before = unit.record.clone();
        let answer = unit.tick(1, 0, 0);
        assert_eq!((answer.rejected, answer.accepted, answer.lines), (1, 0, 0));
        // Nothing but scaler 1 (assigned to any pulse passed), the blind count and STATE's bit 12 moves. [Open: T2]
        // [Blind.3] [State.7]
        assert_eq!(unit.record, Supervisor { scalers: [0, 1], blind: 2, latched: true, ..before });

        // A pulse in each of the next two ticks is lost, the one after them rejected. [Blind.2] [Blind.4] [Blind.5]
        for expected in [(0, 1), (0, 1), (1, 0)] {
            let answer = unit.tick(1, 0, 0);
            assert_eq!((answer.rejected, answer.lost), expected);
        }
    }
}

#[test]
fn p5_pass_with_fail_clears() {
    let mut unit = Unit::running(class_2(5, 1), &[], csr::GO); // [Bench.5] [Main.3]
    unit.accept();
    let answer = unit.tick(0, line::LEVEL_2_PASS | line::LEVEL_2_FAIL, 0);
    assert_eq!(answer.outcome, Outcome::Cleared);
    assert_eq!(unit.record.main, MainState::Clear);
    assert_eq!(answer.lines & u16::from(raised::LEVEL_2_ACCEPT), 0);
}

#[test]
fn p6_fail_at_age_5_clears_and_at_6_is_late() {
    let unit = || Unit::running(class_2(5, 1), &[(Supervisor::T1, 3)], csr::GO | csr::USE_T1); // [Bench.6]
    let mut early = unit();
    early.accept();
    early.quiet_ticks(4);
    assert_eq!(early.tick(0, line::LEVEL_2_FAIL, 0).outcome, Outcome::Cleared);
    assert_eq!((early.record.age, early.record.main), (5, MainState::Clear));
    assert!(!early.has(csr::LATE_FAIL));

    let mut late = unit();
    late.accept();
    late.quiet_ticks(5);
    assert_eq!(late.tick(0, line::LEVEL_2_FAIL, 0).outcome, Outcome::Nothing);
    assert_eq!((late.record.age, late.record.main), (6, MainState::Front));
    assert!(late.has(csr::LATE_FAIL));
    assert_eq!(late.quiet().outcome, Outcome::Event(0x25));
}

#[test]
fn p7_interval_1_puts_sync_in_each_event() {
    let mut unit = Unit::running(class_1(5, 1), &[(Supervisor::SYNC_INTERVAL, 1)], csr::GO | csr::ENABLE_SYNC);
    for _ in 0..4 {
        unit.accept(); // [Bench.7]
        assert_eq!(unit.outcome(), Outcome::Event(0x15));
        unit.run_to_idle();
    }
}

#[test]
fn p8_ninth_pulse_is_lost() {
    for controller in 0..32 {
        let enable = 1 << controller;
        let mut unit = Unit::running(class_1(5, 1), &[(Supervisor::ROC_ENABLE, enable)], csr::GO); // [Bench.8]
        for event in 0..8 {
            assert_eq!(unit.tick(1, 0, 0).accepted, 1, "event {event}");
            unit.quiet_ticks(10);
        }
        assert_eq!(unit.used()[controller / 8], 8);
        let answer = unit.tick(1, 0, 0);
        assert_eq!((answer.lost, answer.accepted), (1, 0));
        assert_eq!(unit.record.main, MainState::Space);
    }
}

#[test]
fn p9_factor_of_input_8_has_14_bits() {
    let mut unit = Unit::fresh(0); // [Bench.9]
    assert_eq!(unit.record.write_register(Supervisor::FACTOR_8, 0x3FFF), Ok(()));
    assert_eq!(unit.record.write_register(Supervisor::FACTOR_8, 0x4000), Err(5));
    assert_eq!(unit.read(Supervisor::FACTOR_8), 0x3FFF);
}

// The misreadings. [Bench.10]

#[test]
fn misreading_first_pulse_after_a_load_passes() {
    let mut unit = Unit::running(0, &[(Supervisor::FACTOR_1, 1)], csr::GO);
    assert_eq!(unit.tick(1, 0, 0).scaled, 1); // [Registers.2]
    assert_eq!(unit.tick(1, 0, 0).rejected, 1);
    assert_eq!(unit.tick(1, 0, 0).scaled, 1); // [Pulses.4]
}

#[test]
fn misreading_strobe_in_the_tick_of_the_load() {
    let mut unit = Unit::running(class_1(5, 1), &[], csr::GO);
    unit.accept();
    unit.quiet();
    let answer = unit.quiet();
    assert_eq!((answer.outcome, answer.shown), (Outcome::Event(5), NONE)); // [Branches.5]
    assert_eq!(unit.states(), [BranchState::Rest; 4]);
    assert_eq!(unit.quiet().shown, [Some(5); 4]);
}

#[test]
fn misreading_tag_counted_by_scaler_0() {
    let mut unit = Unit::running(0, &[], csr::ENABLE_SYNC | csr::FORCE_SYNC);
    assert_eq!(unit.quiet().outcome, Outcome::Tag(0x10));
    assert_eq!(unit.read(Supervisor::SCALER_0), 0); // [Assign.4]
}

#[test]
fn misreading_more_than_8_is_full() {
    // Eight words held are full already: main does not leave Space. [Main.13]
    let mut unit = Unit::running(class_1(5, 1), &[(Supervisor::ROC_ENABLE, 1)], csr::GO);
    for _ in 0..7 {
        unit.accept();
        unit.quiet_ticks(10);
        assert_eq!(unit.record.main, MainState::Idle);
    }
    unit.accept();
    unit.quiet_ticks(100);
    assert_eq!((unit.record.main, unit.used()), (MainState::Space, [8, 0, 0, 0]));
}
