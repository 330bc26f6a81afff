//! Register 21, TEST: which bits it takes, and what each does in the next tick that runs. [Test.1]–[Test.6]

use super::declines::{active, spoiled, ways_to_be_active};
use super::*;

/// Running in test mode, all inputs enabled.
pub(super) fn testing(word: u16, registers: &[(u32, u32)]) -> Unit {
    Unit::running(word, registers, csr::GO | csr::TEST_MODE)
}

/// Everything that may come from outside. [Tick.1]
const OUTSIDE: (u32, u32, u32) = (0xFFF, 0x7F, u32::MAX);

/// A tick with these TEST bits written before it, and everything high outside.
#[track_caller]
fn pulse(unit: &mut Unit, bits: u32) -> Answer {
    unit.write(Supervisor::TEST, bits);
    unit.tick(OUTSIDE.0, OUTSIDE.1, OUTSIDE.2)
}

#[test]
fn the_bits_that_a_write_takes() {
    for bit in 0..32 {
        let is_good = matches!(bit, 0 | 2..=5 | 7..=14); // [Test.5a] [Open: T9]
        for before in [Supervisor::fresh(), active()] {
            let mut record = before.clone();
            let answer = record.write_register(Supervisor::TEST, 1 << bit);
            assert_eq!(answer, if is_good { Ok(()) } else { Err(5) }, "bit {bit}");
            let waits = if is_good && bit != 7 { 1 << bit } else { 0 };
            assert_eq!(record, Supervisor { test: waits, ..before });
        }
    }
}

#[test]
fn it_is_not_protected_and_not_read() {
    for way in ways_to_be_active() {
        let mut record = way.clone();
        assert_eq!(record.write_register(Supervisor::TEST, test::LEVEL_2_PASS), Ok(())); // [Open: T9]
        assert_eq!(record.read_register(Supervisor::TEST), Err(3)); // [Test.5b]
        assert_eq!(record, Supervisor { test: test::LEVEL_2_PASS, ..way });
    }
    assert_eq!(spoiled().write_register(Supervisor::TEST, 0), Err(1));
    assert_eq!(spoiled().read_register(Supervisor::TEST), Err(1));
}

#[test]
fn by_bytes_only_the_run_counts() {
    let mut unit = Unit::fresh(0);
    let mut written = |run: (u32, u32), value: u32| {
        let answer = unit.record.write_bytes(Supervisor::TEST, run.0, run.1, value);
        (answer, std::mem::take(&mut unit.record.test))
    };
    assert_eq!(written((3, 1), 0xFFFF_FF3D), (Ok(()), 0x3D)); // [Open: T9]
    assert_eq!(written((2, 1), 0xFFFF_7FFF), (Ok(()), 0x7F00));
    assert_eq!(written((2, 2), 0xFFFF_7F3D), (Ok(()), 0x7F3D));
    assert_eq!(written((0, 2), 0x0000_FFFF), (Ok(()), 0));
    assert_eq!(written((2, 1), 0x0000_8000), (Err(5), 0)); // [Test.5a] [Bytes.7]
    assert_eq!(written((3, 1), 0x0000_0042), (Err(5), 0));
    assert_eq!(written((1, 1), 0x0001_0000), (Err(5), 0));
}

#[test]
fn by_bytes_the_bits_that_wait_stay() {
    let mut unit = Unit::fresh(0);
    unit.write(Supervisor::TEST, 0x4104);
    assert_eq!(unit.record.write_bytes(Supervisor::TEST, 3, 1, 0x08), Ok(()));
    assert_eq!(unit.record.write_bytes(Supervisor::TEST, 2, 1, 0x0200), Ok(()));
    assert_eq!(unit.record.test, 0x430C); // [Test.6]
}

#[test]
fn bit_0_pulses_every_enabled_input() {
    for strobe_mode in [0, 1] {
        let control = 0x1548 | strobe_mode;
        let mut unit = testing(class_1(3, 0), &[(Supervisor::CONTROL, control)]);
        unit.write(Supervisor::TEST, test::LEVEL_1_PASS);
        let answer = unit.quiet();
        assert_eq!(answer.accepted, 0xAA4); // [Test.3]
        assert_eq!(unit.record.kept_lines, line::STROBE); // the strobe counts as high
        assert_eq!(unit.record.test, 0);
    }
}

#[test]
fn bit_0_pulses_the_inputs_enabled_in_the_tick() {
    let mut unit = testing(class_1(3, 0), &[]);
    unit.write(Supervisor::TEST, test::LEVEL_1_PASS);
    unit.write(Supervisor::CONTROL, 0x0004); // while active [Test.2]
    assert_eq!(unit.quiet().accepted, 0x002); // [Open: T9]
}

#[test]
fn the_prescalers_see_written_pulses() {
    let mut unit = testing(0, &[(Supervisor::FACTOR_1, 2)]);
    // Rejected, and lost while blind.
    for masks in [(1, 0xFFE, 0), (1, 0, 0xFFE), (0, 0, 0xFFF)] {
        let answer = pulse(&mut unit, test::LEVEL_1_PASS);
        assert_eq!((answer.scaled, answer.rejected, answer.lost), masks); // [Pulses.3]
    }
    unit.write(Supervisor::CSR, csr::GO << 16);
    assert_eq!(pulse(&mut unit, test::LEVEL_1_PASS).stopped, 0xFFF); // [Pulses.2]
}

#[test]
fn nothing_from_outside_is_in_force_but_acknowledges() {
    let mut unit = testing(class_3(3, 0), &[]);
    for _ in 0..3 {
        let answer = unit.tick(OUTSIDE.0, OUTSIDE.1, OUTSIDE.2); // [Test.2]
        let masks = answer.stopped | answer.scaled | answer.lost | answer.rejected | answer.accepted;
        assert_eq!((masks, unit.record.main), (0, MainState::Idle));
        assert_eq!((unit.record.kept_lines, unit.record.kept_acknowledges), (0, u32::MAX)); // [Test.4]
        assert!(!unit.has(csr::INHIBIT)); // [Open: T9]
    }
    // Neither busy nor inhibit hinders, neither pass nor fail moves.
    assert_eq!(pulse(&mut unit, test::LEVEL_1_PASS).accepted, 0xFFF);
    for _ in 0..3 {
        unit.tick(OUTSIDE.0, OUTSIDE.1, OUTSIDE.2);
        assert_eq!(unit.record.main, MainState::Wait2);
    }
    pulse(&mut unit, test::LEVEL_2_PASS);
    unit.tick(OUTSIDE.0, OUTSIDE.1, OUTSIDE.2);
    assert_eq!(unit.record.main, MainState::Wait3);
    pulse(&mut unit, test::LEVEL_3_PASS);
    assert_eq!(unit.tick(OUTSIDE.0, OUTSIDE.1, OUTSIDE.2).outcome, Outcome::Event(3));
}

#[test]
fn each_bit_raises_its_line_for_one_tick() {
    let raised = [(0, 0x01), (2, 0x02), (3, 0x08), (4, 0x04), (5, 0x10), (8, 0x20), (9, 0x40), (10, 0), (14, 0)];
    for (bit, line) in raised {
        let mut unit = testing(0, &[]);
        pulse(&mut unit, 1 << bit);
        assert_eq!(unit.record.kept_lines, line, "bit {bit}"); // [Test.2]
        pulse(&mut unit, 0);
        assert_eq!(unit.record.kept_lines, 0, "bit {bit}"); // one tick
    }
}

#[test]
fn passes_and_fails_act_on_their_level() {
    for (bits, main) in [
        (test::LEVEL_2_PASS, MainState::Wait3),
        (test::LEVEL_2_FAIL, MainState::Clear),
        (test::LEVEL_2_PASS | test::LEVEL_2_FAIL, MainState::Clear),
        (test::LEVEL_3_PASS | test::LEVEL_3_FAIL, MainState::Wait2),
    ] {
        let mut unit = testing(class_3(3, 0), &[]);
        pulse(&mut unit, test::LEVEL_1_PASS);
        pulse(&mut unit, bits);
        assert_eq!(unit.record.main, main, "{bits:X}");
    }
    let mut unit = testing(class_3(3, 0), &[]);
    pulse(&mut unit, test::LEVEL_1_PASS);
    pulse(&mut unit, test::LEVEL_2_PASS);
    assert_eq!(pulse(&mut unit, test::LEVEL_3_FAIL).outcome, Outcome::Cleared);
}

#[test]
fn written_busy_and_inhibit_hinder() {
    let mut unit = testing(class_1(3, 0), &[]);
    unit.write(Supervisor::TEST, test::LEVEL_1_PASS | test::FRONT_BUSY);
    assert_eq!(unit.quiet().lost, 0xFFF);
    assert!(!unit.has(csr::INHIBIT));
    unit.write(Supervisor::TEST, test::LEVEL_1_PASS | test::INHIBIT);
    assert_eq!(unit.quiet().lost, 0xFFF);
    assert!(unit.has(csr::INHIBIT)); // [Open: T9]
    unit.write(Supervisor::CSR, csr::OVERRIDE_INHIBIT);
    unit.write(Supervisor::TEST, test::LEVEL_1_PASS | test::INHIBIT);
    assert_eq!(unit.quiet().accepted, 0xFFF);
}

/// One word at the strobe of every branch, with these controllers enabled.
fn at_strobe(enabled: u32) -> Unit {
    let mut unit = testing(class_1(3, 0), &[(Supervisor::ROC_ENABLE, enabled)]);
    unit.write(Supervisor::TEST, test::LEVEL_1_PASS);
    unit.quiet_ticks(4);
    assert_eq!(unit.states(), [BranchState::Strobe; 4]);
    unit
}

#[test]
fn written_acknowledges_need_bit_14() {
    for b in 0..4 {
        let bit = 1 << (test::ACKNOWLEDGE_SHIFT + b);
        let mut unit = at_strobe(0x8181_FF01);
        unit.write(Supervisor::TEST, bit);
        assert_eq!(unit.quiet().finished, NONE); // [Test.4]
        unit.write(Supervisor::TEST, bit | test::ENABLE_ACKNOWLEDGES);
        let mut finished = NONE;
        finished[b as usize] = Some(3);
        assert_eq!(unit.quiet().finished, finished);
        assert_eq!(unit.record.kept_acknowledges, 0xFF << (8 * b));
        // Drop sees the outside again.
        unit.tick(0, 0, u32::MAX);
        assert_eq!(unit.states()[b as usize], BranchState::Drop);
        unit.write(Supervisor::TEST, test::ENABLE_ACKNOWLEDGES);
        unit.tick(0, 0, u32::MAX);
        assert_eq!((unit.states()[b as usize], unit.record.kept_acknowledges), (BranchState::Rest, 0));
    }
}

#[test]
fn bit_14_blocks_acknowledges_from_outside() {
    let mut unit = at_strobe(0x0101_0101);
    unit.write(Supervisor::TEST, test::ENABLE_ACKNOWLEDGES);
    assert_eq!(unit.tick(0, 0, u32::MAX).finished, NONE); // [Test.4]
    assert_eq!(unit.tick(0, 0, u32::MAX).finished, [Some(3); 4]);
}

#[test]
fn with_none_enabled_both_tests_are_true() {
    let mut unit = at_strobe(0x0101_0101);
    unit.record.roc_enable = 0;
    unit.write(Supervisor::TEST, test::ENABLE_ACKNOWLEDGES);
    assert_eq!(unit.quiet().finished, [Some(3); 4]); // [Open: T9]
    unit.write(Supervisor::TEST, test::ENABLE_ACKNOWLEDGES | 0x3C00);
    unit.quiet();
    assert_eq!(unit.states(), [BranchState::Rest; 4]);
}
