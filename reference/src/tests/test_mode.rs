//! Test mode: when written pulses act and when they are dropped, and the control register while active. [Test.2]
//! [Test.6] [Test.8b] [Test.10]

use super::declines::ways_to_be_active;
use super::test_pulses::testing;
use super::*;

#[test]
fn pulses_of_several_writes_act_together() {
    let mut unit = testing(class_2(3, 0), &[]);
    unit.write(Supervisor::TEST, test::LEVEL_1_PASS);
    unit.write(Supervisor::TEST, test::LEVEL_3_PASS);
    unit.write(Supervisor::TEST, 0);
    unit.write(Supervisor::TEST, test::LEVEL_2_FAIL);
    assert_eq!(unit.record.test, 0x19); // [Test.6]
    assert_eq!(unit.quiet().accepted, 0xFFF);
    assert_eq!(unit.record.kept_lines, line::STROBE | line::LEVEL_3_PASS | line::LEVEL_2_FAIL);
    assert_eq!(unit.record.test, 0);
}

#[test]
fn pulses_are_dropped_where_test_mode_is_off() {
    let mut unit = Unit::running(class_1(3, 0), &[], csr::GO);
    unit.write(Supervisor::TEST, 0x7F3D);
    let answer = unit.quiet();
    assert_eq!((answer.accepted, unit.record.kept_lines, unit.record.kept_acknowledges), (0, 0, 0)); // [Test.6]
    assert_eq!(unit.record.test, 0);
    unit.write(Supervisor::CSR, csr::TEST_MODE);
    assert_eq!(unit.quiet().accepted, 0);
}

#[test]
fn test_mode_is_asked_in_the_tick() {
    let mut unit = Unit::running(class_1(3, 0), &[], csr::GO);
    unit.write(Supervisor::TEST, test::LEVEL_1_PASS);
    unit.write(Supervisor::CSR, csr::TEST_MODE);
    assert_eq!(unit.quiet().accepted, 0xFFF); // [Open: T9]

    let mut unit = testing(class_1(3, 0), &[]);
    unit.write(Supervisor::TEST, test::LEVEL_1_PASS);
    unit.write(Supervisor::CSR, csr::TEST_MODE << 16);
    assert_eq!(unit.tick(2, 0, 0).accepted, 2); // the outside is in force again
    unit.write(Supervisor::CSR, csr::TEST_MODE);
    assert_eq!(unit.quiet().lost, 0);
}

#[test]
fn declined_ticks_use_nothing_up() {
    let mut unit = testing(class_1(3, 0), &[]);
    unit.write(Supervisor::TEST, test::LEVEL_1_PASS);
    let before = unit.record.clone();
    assert_eq!(unit.record.tick(&[], 0, 0, 0), Err(2));
    // Test mode blocks the lines, but their bits are tested as ever. [Open: T9]
    assert_eq!(unit.record.tick(&unit.memory, 0x1000, 0, 0), Err(5));
    assert_eq!(unit.record.tick(&unit.memory, 0, 0x80, 0), Err(5));
    assert_eq!(unit.record, before);
    assert_eq!(unit.quiet().accepted, 0xFFF);
}

#[test]
fn odd_bits_that_wait_do_nothing() {
    let mut unit = testing(class_1(3, 0), &[]);
    unit.record.test = !test::BITS;
    assert!(!unit.record.is_spoiled()); // [Open: T9]
    unit.write(Supervisor::TEST, test::FRONT_BUSY);
    assert_eq!(unit.record.test, !test::BITS | test::FRONT_BUSY);
    assert_eq!(unit.tick(0xFFF, 0, 0xAA55_00FF).accepted, 0);
    assert_eq!((unit.record.kept_lines, unit.record.kept_acknowledges), (line::FRONT_BUSY, 0xAA55_00FF));
    assert_eq!(unit.record.test, 0);
}

#[test]
fn control_is_written_while_active_in_test_mode() {
    for way in ways_to_be_active() {
        let in_test = Supervisor { csr: way.csr | csr::TEST_MODE, ..way };
        let mut record = in_test.clone();
        assert_eq!(record.write_register(Supervisor::CONTROL, 0x9ABC), Ok(())); // [Test.2]
        assert_eq!(record.write_bytes(Supervisor::CONTROL, 3, 1, 0x12), Ok(()));
        assert_eq!(record, Supervisor { control: 0x9A12, ..in_test.clone() });
        // 5 is tested still, on the merged value.
        for (first, value) in [(0, 0x2000), (0, 0x1_0000), (2, 0x4000)] {
            assert_eq!(record.write_bytes(Supervisor::CONTROL, first, 4 - first, value), Err(5));
        }
        assert_eq!(record, Supervisor { control: 0x9A12, ..in_test.clone() });
        // Every other protected register stays so. [Declines.2c]
        for number in 2..=16 {
            let mut record = in_test.clone();
            assert_eq!(record.write_register(number, 0), Err(4), "register {number}");
            assert_eq!(record, Supervisor { csr: in_test.csr | csr::WRITE_ERROR, ..in_test.clone() });
        }
    }
}

#[test]
fn hold_opens_no_register() {
    for way in ways_to_be_active() {
        for number in 1..=16 {
            let mut record = Supervisor { csr: way.csr | csr::HOLD, test: test::SINGLE_STEP, ..way.clone() };
            assert_eq!(record.write_register(number, 0), Err(4));
        }
    }
}

#[test]
fn the_modes_are_not_active() {
    let record = Supervisor { csr: csr::MODES, test: u32::MAX, ..Supervisor::fresh() };
    assert!(!record.is_active()); // [Active.1]
}

#[test]
fn reset_drops_what_waits_and_keeps_the_modes() {
    for modes in [0, csr::HOLD, csr::TEST_MODE, csr::MODES] {
        for (value, after) in [
            (0, modes),
            (csr::HOLD, modes | csr::HOLD),
            (csr::TEST_MODE, modes | csr::TEST_MODE),
            (csr::HOLD << 16, modes & !csr::HOLD),
            (csr::TEST_MODE << 16, modes & !csr::TEST_MODE),
            (csr::MODES | csr::MODES << 16, 0),
        ] {
            let mut unit = Unit::fresh(0);
            unit.record.csr = modes;
            unit.record.test = u32::MAX;
            unit.write(Supervisor::CSR, csr::RESET | value);
            assert_eq!((unit.record.csr, unit.record.test), (after, 0)); // [Test.8b]
        }
    }
}

#[test]
fn initialize_clears_all() {
    let mut unit = Unit::fresh(0);
    (unit.record.csr, unit.record.test) = (csr::MODES, 0xBD);
    unit.write(Supervisor::CSR, csr::INITIALIZE | csr::MODES);
    assert_eq!(unit.record, Supervisor::fresh()); // [CSRWrite.1]
}
