//! The held clock and the single step. [Test.7a]–[Test.8b]

use super::*;

/// Held, with an event on its way and a word at every strobe; these CSR bits are written with hold.
fn held_unit(csr: u32) -> Unit {
    let registers = [(Supervisor::ROC_ENABLE, 0x0101_0101), (Supervisor::T2, 20)];
    let mut unit = Unit::running(class_1(5, 0xA0), &registers, csr::GO);
    unit.accept();
    unit.quiet_ticks(60);
    unit.tick(0x800, 0, 0);
    assert_eq!((unit.record.main, unit.states()), (MainState::Delay, [BranchState::Strobe; 4]));
    unit.write(Supervisor::CSR, csr::HOLD | csr);
    unit
}

#[test]
fn a_held_tick_leaves_the_record() {
    for csr in [0, csr::GO << 16, csr::TEST_MODE, csr::TEST_MODE | csr::GO << 16] {
        let mut unit = held_unit(csr);
        let before = unit.record.clone();
        let answer = unit.tick(0x0F0, 0x7E, u32::MAX);
        assert_eq!(unit.record, before); // [Test.7a]
        let expected = Answer {
            // Whatever GO is; in test mode none counts. [Open: T9]
            stopped: if csr & csr::TEST_MODE != 0 { 0 } else { 0x0F0 },
            lines: 0xA001,
            shown: [Some(5); 4],
            ..super::account::QUIET
        };
        assert_eq!(answer, expected);
        assert!(!unit.has(csr::INHIBIT)); // no status bit
    }
}

#[test]
fn only_counted_pulses_are_stopped() {
    let mut unit = Unit::fresh(0);
    unit.write(Supervisor::CONTROL, 0x8157);
    unit.write(Supervisor::FACTOR_1, 3);
    unit.write(Supervisor::CSR, csr::HOLD | csr::GO);
    assert_eq!(unit.tick(0xFFF, 0, 0).stopped, 0); // [Pulses.1]
    assert_eq!(unit.tick(0xFFF, line::STROBE, 0).stopped, 0x0AB);
    assert_eq!(unit.record.counters[0], 3);
    // OPEN PRESCALES changes nothing here.
    unit.write(Supervisor::CSR, csr::GO << 16);
    assert_eq!(unit.tick(0x003, line::STROBE, 0).stopped, 0x003);
}

#[test]
fn declines_are_tested_as_ever() {
    let mut unit = held_unit(0);
    unit.write(Supervisor::TEST, test::SINGLE_STEP);
    for _ in 0..2 {
        let before = unit.record.clone();
        assert_eq!(unit.record.tick(&[0; 4_095], 0, 0, 0), Err(2));
        assert_eq!(unit.record.tick(&unit.memory, 0x1000, 0, 0), Err(5));
        assert_eq!(unit.record.tick(&unit.memory, 0, 0x80, 0), Err(5));
        assert_eq!(unit.record, before, "the step waits still"); // [Open: T9]
        unit.quiet();
    }
    unit.record.age = Supervisor::AGE_LIMIT + 1;
    assert_eq!(unit.record.tick(&unit.memory, 0, 0, 0), Err(1));
}

#[test]
fn a_step_lets_one_tick_through() {
    let mut unit = held_unit(0);
    for written in [1, 3] {
        let age = unit.record.age;
        for _ in 0..written {
            unit.write(Supervisor::TEST, test::SINGLE_STEP); // several as one [Test.8a]
        }
        unit.quiet();
        assert_eq!((unit.record.age, unit.record.test), (age + 1, 0));
        unit.quiet_ticks(3);
        assert_eq!(unit.record.age, age + 1);
    }
}

#[test]
fn a_stepped_tick_is_a_whole_tick() {
    let mut unit = held_unit(0);
    let mut other = unit.record.clone();
    other.csr &= !csr::HOLD;
    unit.write(Supervisor::TEST, test::SINGLE_STEP | test::LEVEL_2_FAIL);
    let answer = unit.tick(0x00F, 0x40, u32::MAX);
    assert_eq!(other.tick(&unit.memory, 0x00F, 0x40, u32::MAX), Ok(answer));
    assert_eq!(unit.record, Supervisor { csr: other.csr | csr::HOLD, ..other });
}

#[test]
fn a_step_without_hold_does_nothing() {
    let mut unit = Unit::running(0, &[], csr::GO);
    unit.write(Supervisor::TEST, test::SINGLE_STEP | test::LEVEL_2_PASS);
    assert_eq!(unit.record.test, test::LEVEL_2_PASS);
    unit.write(Supervisor::CSR, csr::HOLD);
    assert_eq!(unit.tick(1, 0, 0).stopped, 1); // [Open: T9]
}

#[test]
fn a_step_survives_hold_going_off_and_on() {
    let mut unit = held_unit(0);
    let age = unit.record.age;
    unit.write(Supervisor::TEST, test::SINGLE_STEP);
    unit.write(Supervisor::CSR, csr::HOLD << 16);
    unit.write(Supervisor::CSR, csr::HOLD);
    unit.quiet_ticks(2);
    assert_eq!(unit.record.age, age + 1);
    // The next tick that runs uses it up, whichever lets it run. [Open: T9]
    unit.write(Supervisor::TEST, test::SINGLE_STEP);
    unit.write(Supervisor::CSR, csr::HOLD << 16);
    unit.quiet();
    unit.write(Supervisor::CSR, csr::HOLD);
    unit.quiet_ticks(2);
    assert_eq!(unit.record.age, age + 2);
}

#[test]
fn written_pulses_wait_under_hold() {
    let mut unit = Unit::running(class_1(5, 0), &[], csr::GO | csr::MODES);
    unit.write(Supervisor::TEST, test::LEVEL_1_PASS);
    unit.quiet_ticks(3);
    assert_eq!(unit.record.test, test::LEVEL_1_PASS); // [Test.7a]
    unit.write(Supervisor::TEST, test::SINGLE_STEP);
    let answer = unit.tick(0xFFF, 0x7F, 0);
    assert_eq!((answer.accepted, unit.record.test), (0xFFF, 0));
}

#[test]
fn a_step_needs_no_test_mode() {
    let mut unit = Unit::running(class_1(5, 0), &[], csr::GO | csr::HOLD);
    unit.write(Supervisor::TEST, test::SINGLE_STEP | test::LEVEL_1_PASS);
    assert_eq!(unit.tick(4, 0, 0).accepted, 4); // the pulse is dropped [Test.6] [Open: T9]
    assert_eq!(unit.record.test, 0);
}

#[test]
fn state_shows_the_latest_tick_that_ran() {
    let mut unit = held_unit(0);
    unit.write(Supervisor::TEST, test::SINGLE_STEP);
    unit.tick(0, 0x2A, 0x0101_0101);
    let state = unit.read(Supervisor::STATE);
    unit.tick(0xFFF, 0x15, 0);
    assert_eq!(unit.read(Supervisor::STATE), state); // [Test.7b]
                                                     // The rest of STATE follows the record. [Open: T9]
    unit.write(Supervisor::CSR, csr::RESET);
    assert_ne!(unit.read(Supervisor::STATE), state);
}

#[test]
fn ready_ignores_hold() {
    let mut unit = Unit::running(0, &[], csr::GO | csr::MODES);
    assert_eq!(unit.read(Supervisor::STATE) >> 13 & 0b111, 0b100); // [Open: T9]
    unit.write(Supervisor::CSR, csr::MODES << 16);
    assert_eq!(unit.read(Supervisor::STATE) >> 13 & 0b111, 0b100);
}

#[test]
fn reset_drops_the_step() {
    let mut unit = held_unit(0);
    unit.write(Supervisor::TEST, test::SINGLE_STEP);
    unit.write(Supervisor::CSR, csr::RESET);
    assert_eq!(unit.tick(1, 0, 0).stopped, 1); // [Test.8b]
}
