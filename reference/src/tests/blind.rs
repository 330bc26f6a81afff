//! The blind time after a rejected pattern. [Blind.1]–[Blind.5]

use super::*;

/// GO set, all words rejected, and one pulse just rejected.
fn blind() -> Unit {
    let mut unit = Unit::running(0, &[], csr::GO);
    assert_eq!(unit.tick(1, 0, 0).rejected, 1);
    assert_eq!(unit.record.blind, 2);
    unit
}

/// Fresh but for the blind count and these CSR bits.
fn put(count: u32, csr_bits: u32) -> Unit {
    let mut unit = Unit::running(0, &[], csr_bits);
    unit.record.blind = count;
    unit
}

#[test]
fn two_of_four_pulses_in_a_row_are_lost() {
    let mut unit = Unit::running(0, &[], csr::GO);
    let masks: Vec<(u16, u16)> = (0..8)
        .map(|_| {
            let answer = unit.tick(1, 0, 0);
            (answer.rejected, answer.lost)
        })
        .collect();
    // A pulse lost while blind does not start the count again. [Blind.2] [Blind.4]
    let four = [(1, 0), (0, 1), (0, 1), (1, 0)];
    assert_eq!(masks, [four, [(0, 1), (0, 1), (1, 0), (0, 1)]].concat());
}

#[test]
fn the_count_falls_without_pulses() {
    let mut unit = blind();
    for count in [1, 0, 0] {
        unit.quiet(); // [Blind.2]
        assert_eq!(unit.record.blind, count);
    }
    assert_eq!(unit.tick(1, 0, 0).rejected, 1);
    unit.quiet();
    assert_eq!(unit.tick(1, 0, 0).lost, 1);
    assert_eq!(unit.tick(1, 0, 0).rejected, 1);
}

#[test]
fn a_good_pattern_is_lost_while_blind() {
    let mut unit = blind();
    unit.memory[2] = class_1(5, 1);
    for _ in 0..2 {
        let answer = unit.tick(2, 0, 0); // [Blind.4]
        assert_eq!((answer.lost, answer.accepted, answer.lines), (2, 0, 0));
        assert_eq!(unit.record.main, MainState::Idle);
    }
    assert_eq!(unit.tick(2, 0, 0).accepted, 2);
}

#[test]
fn only_a_rejected_pattern_starts_the_count() {
    let mut accepting = Unit::running(class_1(5, 1), &[], csr::GO);
    accepting.accept();
    assert_eq!(accepting.record.blind, 0);
    // In a cycle pulses are lost, and that starts nothing either.
    assert_eq!(accepting.tick(1, 0, 0).lost, 1);
    assert_eq!(accepting.record.blind, 0);
    for lines in [line::FRONT_BUSY, line::INHIBIT] {
        let mut unit = Unit::running(0, &[], csr::GO);
        assert_eq!(unit.tick(1, lines, 0).lost, 1);
        assert_eq!(unit.record.blind, 0);
    }
    let mut scaling = Unit::running(0, &[(Supervisor::FACTOR_1, 1)], csr::GO);
    assert_eq!(scaling.tick(1, 0, 0).scaled, 1);
    assert_eq!(scaling.record.blind, 0);
}

#[test]
fn the_count_falls_without_go() {
    let mut unit = blind();
    unit.write(Supervisor::CSR, csr::GO << 16);
    assert_eq!(unit.record.blind, 2);
    assert_eq!(unit.tick(1, 0, 0).stopped, 1); // the pulse rule comes first [Pulses.2]
    assert_eq!(unit.record.blind, 1); // [Open: T8]

    // GO again does not zero what is left.
    unit.write(Supervisor::CSR, csr::GO);
    assert_eq!(unit.tick(1, 0, 0).lost, 1);
    assert_eq!(unit.tick(1, 0, 0).rejected, 1);
}

#[test]
fn other_lines_do_not_stop_the_count() {
    for lines in [line::FRONT_BUSY, line::INHIBIT, line::ALL] {
        let mut unit = blind();
        unit.tick(1, lines, u32::MAX); // [Open: T8]
        assert_eq!(unit.record.blind, 1);
        assert_eq!(unit.has(csr::INHIBIT), lines & line::INHIBIT != 0); // [Ready.6]
    }
}

#[test]
fn in_a_cycle_the_count_only_falls() {
    // No list of calls gets there, but nothing is spoiled, and main moves as it would. [Open: T8] [Open: A5]
    for main in [
        MainState::Delay,
        MainState::Wait2,
        MainState::Wait3,
        MainState::Front,
        MainState::Space,
        MainState::SyncHold,
        MainState::Clear,
    ] {
        for (count, left) in [(0, 0), (1, 0), (2, 1)] {
            let mut unit = put(count, csr::GO);
            unit.record.main = main;
            unit.record.class = 2;
            let mut other = put(0, csr::GO);
            other.record = Supervisor { blind: 0, ..unit.record.clone() };
            let lines = line::LEVEL_2_PASS | line::LEVEL_3_PASS;
            assert_eq!(unit.tick(1, lines, 0), other.tick(1, lines, 0));
            assert_eq!(unit.record, Supervisor { blind: left, ..other.record });
        }
    }
}

#[test]
fn prescalers_count_while_blind() {
    let mut unit = Unit::running(0, &[(Supervisor::FACTOR_1, 1)], csr::GO);
    assert_eq!(unit.tick(2, 0, 0).rejected, 2);
    assert_eq!(unit.tick(1, 0, 0).scaled, 1); // [Pulses.3]
    assert_eq!(unit.tick(1, 0, 0).lost, 1); // [Pulses.4] [Blind.4]
    assert_eq!(unit.tick(3, 0, 0).rejected, 2);
}

#[test]
fn reset_and_initialize_zero_the_count() {
    for value in [csr::RESET, csr::RESET | csr::GO, csr::INITIALIZE] {
        for count in 0..=2 {
            let mut unit = put(count, csr::GO);
            unit.write(Supervisor::CSR, value); // [Blind.3] [CSRWrite.1]
            assert_eq!(unit.record.blind, 0);
        }
    }
    let mut unit = blind();
    unit.write(Supervisor::CSR, csr::RESET);
    unit.write(Supervisor::CSR, csr::GO);
    assert_eq!(unit.tick(1, 0, 0).rejected, 1);
}

#[test]
fn a_declined_tick_leaves_the_count() {
    let mut unit = blind();
    let before = unit.record.clone();
    let Unit { record, memory } = &mut unit;
    assert_eq!(record.tick(&memory[1..], 1, 0, 0), Err(2)); // [Declines.5b] [Open: T8]
    assert_eq!(record.tick(memory, 0x1000, 0, 0), Err(5)); // [Declines.5c]
    assert_eq!(record.tick(memory, 1, 0x80, 0), Err(5));
    assert_eq!(*record, before);
    let mut spoiled = Supervisor { age: Supervisor::AGE_LIMIT + 1, ..before };
    assert_eq!(spoiled.tick(memory, 1, 0, 0), Err(1)); // [Declines.5a]
    assert_eq!(spoiled.blind, 2);
    assert_eq!(unit.tick(1, 0, 0).lost, 1);
    assert_eq!(unit.record.blind, 1);
}

#[test]
fn no_other_call_moves_the_count() {
    let mut unit = put(2, csr::GO);
    for value in [csr::GO, csr::GO << 16, csr::CLEAR_STATUS, csr::FORCE_SYNC, csr::ROC_LOCK] {
        unit.write(Supervisor::CSR, value);
    }
    for number in 1..=19 {
        unit.write(number, 0);
        unit.read(number);
    }
    let Unit { record, memory } = &mut unit;
    assert_eq!(record.write_register(20, 0), Err(3));
    assert_eq!(record.write_register(0, 1 << 30), Err(5));
    assert_eq!(record.write_memory(memory, 1, 3), Ok(()));
    assert_eq!(record.read_memory(memory, 1), Ok(3));
    assert_eq!(record.read_memory(memory, 4_096), Err(3));
    assert_eq!(record.blind, 2);
}

#[test]
fn a_blind_module_is_not_active() {
    let mut unit = blind();
    assert_eq!(unit.record.write_register(Supervisor::CONTROL, 0), Err(4), "GO is set");
    unit.write(Supervisor::CSR, csr::GO << 16);
    assert_eq!(unit.record.blind, 2);
    assert!(!unit.record.is_active()); // [Open: T8]
    unit.write(Supervisor::CONTROL, 0);
    assert_eq!(unit.record.write_memory(&mut unit.memory, 0, 1), Ok(()));
}

#[test]
fn a_tag_loads_while_blind() {
    for extra in [0, csr::GO << 16] {
        let mut unit = blind();
        unit.write(Supervisor::CSR, csr::FORCE_SYNC | csr::ENABLE_SYNC | extra);
        let answer = unit.quiet(); // [Usersync.1] [Open: T8]
        assert_eq!((answer.outcome, unit.record.blind), (Outcome::Tag(0x10), 1));
        assert!(unit.record.user_sync_waiting);
        unit.quiet();
        assert_eq!(unit.record.blind, 0, "it falls in the wait too");
    }
}

#[test]
fn scaler_1_counts_what_passed_while_blind() {
    for code in 0x00..=0x0F {
        let mut unit = Unit::running(0, &[(Supervisor::ASSIGN, code)], csr::GO);
        unit.tick(0x800, 0, 0);
        unit.write(Supervisor::SCALER_1, 0);
        assert_eq!((unit.tick(0x7FF, 0, 0).lost, unit.tick(0x7FF, 0, 0).lost), (0x7FF, 0x7FF));
        // Passed, but not latched. [Assign.1] [Open: T8]
        let expected = if code <= 0x0B { 2 } else { 0 };
        assert_eq!(unit.read(Supervisor::SCALER_1), expected, "code {code:X}");
        unit.tick(0x800, 0, 0);
        let expected = expected + u32::from(matches!(code, 0x00 | 0x0C | 0x0D | 0x0F));
        assert_eq!(unit.read(Supervisor::SCALER_1), expected, "code {code:X}");
    }
}

#[test]
fn scaler_1_counts_input_12_while_blind() {
    let mut unit = Unit::running(0, &[(Supervisor::ASSIGN, 0x0C)], csr::GO);
    unit.tick(1, 0, 0);
    assert_eq!(unit.read(Supervisor::SCALER_1), 0);
    assert_eq!(unit.tick(0x800, 0, 0).lost, 0x800);
    assert_eq!(unit.read(Supervisor::SCALER_1), 1); // [Open: T8]
}

#[test]
fn open_prescales_without_go_loses_while_blind() {
    let mut unit = Unit::fresh(0);
    unit.write(Supervisor::CONTROL, control::OPEN_PRESCALES | ALL_ENABLED);
    unit.record.blind = 2;
    let answer = unit.tick(1, 0, 0);
    assert_eq!((answer.stopped, answer.lost, unit.record.blind), (0, 1, 1)); // [Blind.4]
}
