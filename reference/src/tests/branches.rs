//! Branches and their queues.

use super::*;

/// Loads one event; the tick of the load is the last one made.
fn load(unit: &mut Unit) {
    unit.accept();
    unit.quiet();
    assert_eq!(unit.quiet().outcome, Outcome::Event(5));
}

#[test]
fn with_none_enabled_both_tests_are_true() {
    let mut unit = Unit::running(class_1(5, 1), &[], csr::GO);
    load(&mut unit);
    // Acknowledges of controllers that are not enabled do not matter. [Branches.4] [Open: B3]
    assert_eq!(unit.tick(0, 0, u32::MAX).shown, [Some(5); 4]);
    let answer = unit.tick(0, 0, 0);
    assert_eq!((answer.finished, answer.shown), ([Some(5); 4], NONE)); // [Branches.2]
    assert_eq!(unit.states(), [BranchState::Drop; 4]);
    unit.tick(0, 0, u32::MAX);
    assert_eq!(unit.states(), [BranchState::Rest; 4]); // [Branches.3]
}

#[test]
fn all_enabled_acknowledges_must_be_high_then_low() {
    for branch in 0..4u32 {
        let enable = 0x81 << (8 * branch);
        let mut unit = Unit::running(class_1(5, 1), &[(Supervisor::ROC_ENABLE, enable)], csr::GO);
        load(&mut unit);
        unit.quiet();
        let b = branch as usize;
        for low in [0, 0x01, 0x80, 0x7E, 0x7F, 0xFE] {
            let answer = unit.tick(0, 0, low << (8 * branch) | !(0xFF << (8 * branch)));
            assert_eq!((answer.finished[b], answer.shown[b]), (None, Some(5)), "acknowledges {low:X}");
        }
        assert_eq!(unit.tick(0, 0, enable).finished[b], Some(5)); // [Branches.2]
        for high in [0x01, 0x80, 0x81, 0xFF] {
            unit.tick(0, 0, high << (8 * branch));
            assert_eq!(unit.states()[b], BranchState::Drop, "acknowledges {high:X}");
        }
        unit.tick(0, 0, !enable); // [Branches.3]
        assert_eq!(unit.states()[b], BranchState::Rest);
    }
}

#[test]
fn words_leave_first_in_first_out() {
    let mut unit = Unit::running(0, &[(Supervisor::ROC_ENABLE, 1)], csr::GO);
    for place in 1..=8u16 {
        unit.memory[usize::from(place)] = class_1(place, 0);
    }
    for place in 1..=8 {
        assert_eq!(unit.tick(place, 0, 0).accepted, place as u16);
        unit.quiet_ticks(9);
    }
    assert_eq!(words(&unit.record.branches[0]), [1, 2, 3, 4, 5, 6, 7, 8]);
    let mut finished = Vec::new();
    for _ in 0..8 {
        assert_eq!(unit.tick(0, 0, 1).shown[0], None);
        finished.extend(unit.record.branches[0].held().first().copied());
        unit.quiet_ticks(2);
    }
    assert_eq!(finished, [2, 3, 4, 5, 6, 7, 8]);
    assert_eq!(unit.record.branches[0], Branch::fresh());
}

#[test]
fn a_load_joins_what_the_move_left() {
    // Branch 1 is at Strobe with one word and finishes it in the tick of the next load. [Branches.5]
    let mut unit = Unit::running(class_1(5, 1), &[(Supervisor::ROC_ENABLE, 1)], csr::GO);
    load(&mut unit);
    unit.quiet();
    unit.memory.fill(class_1(6, 1));
    unit.accept();
    unit.quiet();
    let answer = unit.tick(0, 0, 1);
    assert_eq!((answer.outcome, answer.finished[0]), (Outcome::Event(6), Some(5)));
    assert_eq!(unit.record.branches[0].state, BranchState::Drop);
    assert_eq!(unit.record.branches[0].held(), [6]);
}

#[test]
fn the_word_is_shown_as_long_as_the_branch_strobes() {
    let mut unit = Unit::running(class_1(5, 1), &[(Supervisor::ROC_ENABLE, 0x0101_0101)], csr::GO);
    load(&mut unit);
    for _ in 0..5 {
        assert_eq!(unit.quiet().shown, [Some(5); 4]); // [Open: B1]
    }
    let answer = unit.tick(0, 0, 0x0001_0001);
    assert_eq!(answer.finished, [Some(5), None, Some(5), None]);
    assert_eq!(answer.shown, [None, Some(5), None, Some(5)]);
}

#[test]
fn queue_full_in_the_midst_of_a_user_sync() {
    // Seven words held and main Idle: the tag is the eighth. [Usersync.1] [Spoiled.1f]
    let mut unit = Unit::running(class_1(5, 1), &[(Supervisor::ROC_ENABLE, 1)], csr::GO);
    for _ in 0..7 {
        load(&mut unit);
        unit.run_to_idle();
    }
    unit.write(Supervisor::CSR, csr::FORCE_SYNC | csr::ENABLE_SYNC);
    assert_eq!(unit.quiet().outcome, Outcome::Tag(0x10));
    assert_eq!(words(&unit.record.branches[0]), [5, 5, 5, 5, 5, 5, 5, 0x10]);
    assert_eq!(unit.used()[0], 8);
    unit.quiet_ticks(20);
    assert!(unit.record.user_sync_waiting);
    for _ in 0..8 {
        unit.tick(0, 0, 1);
        unit.quiet_ticks(2);
    }
    assert!(!unit.record.user_sync_waiting);
    assert!(!unit.has(csr::FORCE_SYNC));
}

#[test]
fn queue_full_then_one_word_off() {
    let mut unit = Unit::running(class_1(5, 1), &[(Supervisor::ROC_ENABLE, 1 << 31)], csr::GO);
    for _ in 0..8 {
        load(&mut unit);
        unit.quiet_ticks(10);
    }
    assert_eq!((unit.record.main, unit.used()[3]), (MainState::Space, 8));
    assert_eq!(unit.tick(1, 0, 1 << 31).lost, 1);
    assert_eq!(unit.tick(1, 0, 1 << 31).lost, 1, "Space sees seven words, Idle comes after this tick");
    assert_eq!(unit.tick(1, 0, 1 << 31).accepted, 1); // [Main.13] [Lab.4]
    unit.quiet_ticks(10);
    assert_eq!(unit.used()[3], 8);
}
