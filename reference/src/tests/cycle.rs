//! The main sequencer through the three classes, and fails.

use super::*;

#[test]
fn class_1_goes_through_delay() {
    // T2 = 2 and T3 = 3: accepts at ages 4 and 6. [Main.2] [Main.7]
    let mut unit = Unit::running(class_1(5, 1), &[(Supervisor::T2, 2), (Supervisor::T3, 3)], csr::GO);
    assert_eq!(unit.accept().lines, 0x0101);
    let lines: Vec<u16> = (0..7).map(|_| unit.quiet().lines).collect();
    assert_eq!(lines, [0x0101, 0x0101, 0x0101, 0x0105, 0x0105, 0x0115, 0x0115]);
    assert_eq!(unit.record.main, MainState::Space);
    assert_eq!(unit.quiet().lines, 0);
    assert_eq!(unit.record.main, MainState::Idle);
}

#[test]
fn delay_raises_level_3_first_if_t3_is_shorter() {
    let mut unit = Unit::running(class_1(5, 1), &[(Supervisor::T2, 3), (Supervisor::T3, 1)], csr::GO);
    unit.accept();
    let lines: Vec<u16> = (0..6).map(|_| unit.quiet().lines).collect();
    assert_eq!(lines, [0x0101, 0x0111, 0x0111, 0x0111, 0x0111, 0x0115]); // [Main.7]
    assert_eq!(unit.record.main, MainState::Front);
}

#[test]
fn delay_ignores_passes_and_fails() {
    let mut unit = Unit::running(class_1(5, 1), &[(Supervisor::T2, 50)], csr::GO);
    unit.accept();
    let answer = unit.tick(0, 0x1E, 0); // [Open: M2]
    assert_eq!((answer.lines, answer.outcome), (0x0111, Outcome::Nothing));
    assert_eq!(unit.record.main, MainState::Delay);
}

#[test]
fn class_2_goes_through_wait_2_and_delay() {
    let mut unit = Unit::running(class_2(6, 2), &[(Supervisor::T2, 10), (Supervisor::T3, 2)], csr::GO);
    assert_eq!(unit.accept().lines, 0x0203); // [Main.2]
    assert_eq!(unit.quiet().lines, 0x0203);
    assert_eq!(unit.record.main, MainState::Wait2);
    // Pass at age 2: level 2 accept up at once, Delay tests from the next tick on. [Main.4]
    assert_eq!(unit.tick(0, line::LEVEL_2_PASS, 0).lines, 0x0207);
    assert_eq!(unit.record.main, MainState::Delay);
    assert_eq!(unit.quiet().lines, 0x0207);
    assert_eq!(unit.quiet().lines, 0x0217);
    assert_eq!((unit.record.main, unit.record.age), (MainState::Front, 4));
    assert_eq!(unit.quiet().outcome, Outcome::Event(6));
}

#[test]
fn class_3_goes_through_both_waits() {
    let mut unit = Unit::running(class_3(7, 4), &[(Supervisor::T2, 10), (Supervisor::T3, 10)], csr::GO);
    assert_eq!(unit.accept().lines, 0x0403);
    assert_eq!(unit.tick(0, line::LEVEL_2_PASS, 0).lines, 0x040F); // [Main.4]
    assert_eq!(unit.record.main, MainState::Wait3);
    assert_eq!(unit.quiet().lines, 0x040F);
    assert_eq!(unit.tick(0, line::LEVEL_3_PASS, 0).lines, 0x041F); // [Main.5]
    assert_eq!(unit.record.main, MainState::Front);
    let answer = unit.quiet();
    assert_eq!((answer.outcome, answer.lines), (Outcome::Event(7), 0x041F));
    assert_eq!(unit.quiet().lines, 0); // [Main.17]
}

#[test]
fn each_wait_reads_its_own_lines() {
    let mut unit = Unit::running(class_3(7, 0), &[], csr::GO);
    unit.accept();
    unit.tick(0, line::LEVEL_3_PASS | line::LEVEL_3_FAIL, 0); // [Open: M2]
    assert_eq!(unit.record.main, MainState::Wait2);
    unit.tick(0, line::LEVEL_2_PASS | line::LEVEL_3_PASS | line::LEVEL_3_FAIL, 0);
    assert_eq!(unit.record.main, MainState::Wait3);
    unit.tick(0, line::LEVEL_2_PASS | line::LEVEL_2_FAIL, 0);
    assert_eq!(unit.record.main, MainState::Wait3);
}

#[test]
fn the_accepting_tick_ignores_pass_and_fail() {
    for lines in [line::LEVEL_2_PASS, line::LEVEL_2_FAIL] {
        let mut unit = Unit::running(class_2(7, 0), &[], csr::GO);
        let answer = unit.tick(1, lines, 0); // [Open: M1]
        assert_eq!((answer.accepted, answer.outcome), (1, Outcome::Nothing));
        assert_eq!((unit.record.main, unit.record.age), (MainState::Wait2, 0));
    }
}

#[test]
fn fail_beats_pass_in_wait_3_too() {
    let mut unit = Unit::running(class_3(7, 0), &[], csr::GO);
    unit.accept();
    unit.tick(0, line::LEVEL_2_PASS, 0);
    let answer = unit.tick(0, line::LEVEL_3_PASS | line::LEVEL_3_FAIL, 0); // [Main.6]
    assert_eq!(answer.outcome, Outcome::Cleared);
    // Entering Clear drops no line and raises the clear line. [Open: M4]
    assert_eq!(answer.lines, 0x002F);
}

#[test]
fn late_fail_in_wait_2() {
    let mut unit = Unit::running(class_2(7, 0), &[(Supervisor::T1, 1)], csr::GO | csr::USE_T1);
    unit.accept();
    unit.quiet();
    let answer = unit.tick(0, line::LEVEL_2_PASS | line::LEVEL_2_FAIL, 0);
    // No accept line, no outcome yet. [Main.6] [Open: M3]
    assert_eq!((answer.outcome, answer.lines), (Outcome::Nothing, 0x0003));
    assert!(unit.record.late && unit.has(csr::LATE_FAIL));
    assert_eq!(unit.record.main, MainState::Front);
    let answer = unit.quiet();
    assert_eq!((answer.outcome, answer.lines), (Outcome::Event(0x27), 0x0003)); // [Main.9]
    unit.run_to_idle();
    assert!(!unit.record.late); // [Main.17]
}

#[test]
fn late_fail_in_wait_3() {
    let mut unit = Unit::running(class_3(7, 0), &[(Supervisor::T1, 2)], csr::GO | csr::USE_T1);
    unit.accept();
    unit.tick(0, line::LEVEL_2_PASS, 0);
    unit.quiet_ticks(2);
    let answer = unit.tick(0, line::LEVEL_3_FAIL, 0);
    assert_eq!((answer.outcome, answer.lines, unit.record.age), (Outcome::Nothing, 0x000F, 4));
    assert_eq!(unit.quiet().outcome, Outcome::Event(0x27));
}

#[test]
fn t1_counts_only_when_in_use() {
    let mut unit = Unit::running(class_2(7, 0), &[], csr::GO);
    unit.accept();
    unit.quiet_ticks(20);
    assert_eq!(unit.tick(0, line::LEVEL_2_FAIL, 0).outcome, Outcome::Cleared); // [Main.6]

    // T1 = 0 in use: the first fail possible, at age 1, is late already.
    let mut zero = Unit::running(class_2(7, 0), &[], csr::GO | csr::USE_T1);
    zero.accept();
    assert_eq!(zero.tick(0, line::LEVEL_2_FAIL, 0).outcome, Outcome::Nothing);
    assert_eq!(zero.record.main, MainState::Front);
}
