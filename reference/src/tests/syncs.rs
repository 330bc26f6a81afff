//! Scheduled syncs and user syncs.

use super::*;

const CONTROLLER: (u32, u32) = (Supervisor::ROC_ENABLE, 1);

fn event(unit: &mut Unit) -> Outcome {
    unit.accept();
    unit.outcome()
}

#[test]
fn every_third_event_has_sync() {
    let mut unit = Unit::running(class_1(5, 1), &[(Supervisor::SYNC_INTERVAL, 3)], csr::GO | csr::ENABLE_SYNC);
    let mut words = Vec::new();
    let mut counts = Vec::new();
    for _ in 0..7 {
        words.extend(event(&mut unit).word());
        counts.push(unit.record.sync_count);
        unit.run_to_idle();
        counts.push(unit.record.sync_count);
    }
    assert_eq!(words, [5, 5, 0x15, 5, 5, 0x15, 5]); // [Main.10]

    // The count keeps its value at the load with sync and is zeroed when Sync hold ends. [Main.14] [Open: S1]
    assert_eq!(counts, [1, 1, 2, 2, 2, 0, 1, 1, 2, 2, 2, 0, 1, 1]);
    assert!(unit.has(csr::SYNC)); // [Main.11]
}

#[test]
fn no_sync_without_bit_4_or_interval() {
    for (interval, bit) in [(1, 0), (0, csr::ENABLE_SYNC), (0, 0)] {
        let mut unit = Unit::running(class_1(5, 1), &[(Supervisor::SYNC_INTERVAL, interval)], csr::GO | bit);
        assert_eq!(event(&mut unit), Outcome::Event(5)); // [Main.10]
        assert_eq!((unit.record.main, unit.record.sync_count), (MainState::Space, 0)); // [Main.12]
        assert!(!unit.has(csr::SYNC));
    }
}

#[test]
fn the_longest_interval() {
    let mut unit = Unit::running(class_1(5, 1), &[(Supervisor::SYNC_INTERVAL, 0xFFFF)], csr::GO | csr::ENABLE_SYNC);
    unit.record.sync_count = 65_533;
    assert_eq!(event(&mut unit), Outcome::Event(5));
    assert_eq!(unit.record.sync_count, 65_534); // [Spoiled.1h]
    unit.run_to_idle();
    assert_eq!(event(&mut unit), Outcome::Event(0x15));
    unit.run_to_idle();
    assert_eq!(unit.record.sync_count, 0);
}

#[test]
fn the_count_survives_interval_go_and_bit_4() {
    let mut unit = Unit::running(class_1(5, 1), &[(Supervisor::SYNC_INTERVAL, 9)], csr::GO | csr::ENABLE_SYNC);
    for _ in 0..4 {
        event(&mut unit);
        unit.quiet_ticks(9);
    }
    assert_eq!(unit.record.sync_count, 4);
    unit.write(Supervisor::CSR, (csr::GO | csr::ENABLE_SYNC) << 16);
    unit.write(Supervisor::SYNC_INTERVAL, 2);
    unit.write(Supervisor::CSR, csr::GO);
    event(&mut unit);
    unit.run_to_idle();
    assert_eq!(unit.record.sync_count, 4, "bit 4 clear: no count"); // [Open: S1]
    unit.write(Supervisor::CSR, csr::ENABLE_SYNC);
    assert_eq!(event(&mut unit), Outcome::Event(0x15), "4 + 1 is past the shortened interval");
    // [Main.10]
}

#[test]
fn sync_hold_waits_for_all_empty() {
    let mut unit =
        Unit::running(class_1(5, 1), &[(Supervisor::SYNC_INTERVAL, 1), CONTROLLER], csr::GO | csr::ENABLE_SYNC);
    event(&mut unit);
    assert_eq!(unit.record.main, MainState::SyncHold); // [Main.12]
    unit.quiet_ticks(20);
    assert_eq!((unit.record.main, unit.used()), (MainState::SyncHold, [1, 0, 0, 0]));
    unit.tick(0, 0, 1);
    assert_eq!((unit.record.main, unit.used()), (MainState::SyncHold, [0; 4])); // [Tick.2]

    // A branch at Drop may be empty. [Open: B4]
    assert_eq!(unit.states()[0], BranchState::Drop);
    unit.tick(0, 0, 1);
    assert_eq!((unit.record.main, unit.states()[0]), (MainState::Idle, BranchState::Drop)); // [Main.14]
    assert!(unit.has(csr::GO));
}

#[test]
fn pause_on_next_sync_clears_go() {
    let bits = csr::GO | csr::ENABLE_SYNC | csr::PAUSE_ON_NEXT_SYNC;
    let mut unit = Unit::running(class_1(5, 1), &[(Supervisor::SYNC_INTERVAL, 2), CONTROLLER], bits);
    assert_eq!(event(&mut unit), Outcome::Event(5));
    unit.run_to_idle();
    assert!(unit.has(bits), "an event without sync does not pause");
    assert_eq!(event(&mut unit), Outcome::Event(0x15));
    for _ in 0..2 {
        unit.quiet_ticks(2);
        unit.tick(0, 0, 1);
    }
    assert_eq!((unit.record.main, unit.used()), (MainState::SyncHold, [0; 4]));
    assert!(unit.has(bits));
    // The tick that ends the hold still has GO for its pulses: lost, not stopped. [Open: T1]
    let answer = unit.tick(1, 0, 0);
    assert_eq!((answer.lost, answer.stopped), (1, 0));
    assert_eq!(unit.record.csr & csr::CONTROLS, csr::ENABLE_SYNC); // [Main.14]
    assert_eq!(unit.tick(1, 0, 0).stopped, 1);
}

#[test]
fn force_sync_keeps_go() {
    let bits = csr::GO | csr::FORCE_SYNC | csr::ENABLE_SYNC;
    let mut unit = Unit::running(class_1(5, 1), &[], bits);
    let answer = unit.tick(1, 0, 0);
    assert_eq!((answer.outcome, answer.lost, answer.shown), (Outcome::Tag(0x10), 1, NONE)); // [Usersync.1]
    assert!(unit.record.user_sync_waiting && unit.has(csr::SYNC));
    assert_eq!(unit.used(), [1; 4]);
    assert_eq!(unit.tick(1, 0, 0).shown, [Some(0x10); 4]);
    assert_eq!(unit.tick(1, 0, 0).finished, [Some(0x10); 4]);
    assert!(unit.record.user_sync_waiting);
    let answer = unit.tick(1, 0, 0); // All empty at its start: the wait ends. [Usersync.2]
    assert_eq!((answer.lost, answer.outcome), (1, Outcome::Nothing));
    assert!(!unit.record.user_sync_waiting);
    assert_eq!(unit.record.csr & csr::CONTROLS, csr::GO | csr::ENABLE_SYNC);
    assert_eq!(unit.tick(1, 0, 0).accepted, 1);
}

#[test]
fn pause_and_sync_clears_go() {
    for extra in [0, csr::FORCE_SYNC] {
        let bits = csr::GO | csr::PAUSE_AND_SYNC | csr::ENABLE_SYNC | extra;
        let mut unit = Unit::running(class_1(5, 1), &[], bits);
        unit.quiet_ticks(3);
        assert!(unit.has(bits));
        let answer = unit.tick(1, 0, 0);
        assert_eq!((answer.lost, answer.stopped), (1, 0)); // [Open: T1]
        assert_eq!(unit.record.csr & csr::CONTROLS, csr::ENABLE_SYNC); // [Usersync.2]
        assert_eq!(unit.tick(1, 0, 0).stopped, 1);
    }
}

#[test]
fn pause_and_sync_set_while_waiting_clears_go() {
    let mut unit = Unit::running(0, &[CONTROLLER], csr::GO | csr::FORCE_SYNC | csr::ENABLE_SYNC);
    unit.quiet_ticks(2);
    unit.tick(0, 0, 1);
    unit.write(Supervisor::CSR, csr::PAUSE_AND_SYNC); // stands at the start of the ending tick [Open: T5]
    unit.quiet();
    assert_eq!(unit.record.csr & csr::CONTROLS, csr::ENABLE_SYNC);
    assert!(!unit.record.user_sync_waiting);
}

#[test]
fn pause_on_next_sync_is_left_by_a_user_sync() {
    let bits = csr::GO | csr::PAUSE_ON_NEXT_SYNC | csr::FORCE_SYNC | csr::ENABLE_SYNC;
    let mut unit = Unit::running(0, &[], bits);
    unit.quiet_ticks(4);
    assert!(!unit.record.user_sync_waiting);
    assert_eq!(unit.record.csr & csr::CONTROLS, bits & !csr::FORCE_SYNC); // [Usersync.2]
}

#[test]
fn a_user_sync_needs_neither_go_nor_front() {
    let mut unit = Unit::running(0, &[], csr::PAUSE_AND_SYNC | csr::ENABLE_SYNC);
    let answer = unit.tick(0, line::FRONT_BUSY | line::INHIBIT, 0); // [Open: U1]
    assert_eq!(answer.outcome, Outcome::Tag(0x10));
    for _ in 0..3 {
        unit.tick(0, line::FRONT_BUSY, 0);
    }
    assert!(!unit.record.user_sync_waiting);
}

#[test]
fn without_bit_4_no_user_sync() {
    let mut unit = Unit::running(0, &[], csr::GO | csr::PAUSE_AND_SYNC | csr::FORCE_SYNC);
    unit.quiet_ticks(5);
    assert!(!unit.record.user_sync_waiting && unit.has(csr::PAUSE_AND_SYNC | csr::FORCE_SYNC));
    // [Usersync.1]
}

#[test]
fn clearing_bit_4_does_not_end_a_wait() {
    let mut unit = Unit::running(0, &[CONTROLLER], csr::GO | csr::PAUSE_AND_SYNC | csr::ENABLE_SYNC);
    unit.quiet();
    unit.write(Supervisor::CSR, csr::ENABLE_SYNC << 16);
    unit.quiet_ticks(10);
    assert!(unit.record.user_sync_waiting); // [Open: U1]
    unit.tick(0, 0, 1);
    unit.quiet();
    assert_eq!(unit.record.csr & csr::CONTROLS, 0);
    assert!(!unit.record.user_sync_waiting);
}

#[test]
fn bits_cleared_while_waiting_leave_go() {
    let mut unit = Unit::running(0, &[CONTROLLER], csr::GO | csr::PAUSE_AND_SYNC | csr::ENABLE_SYNC);
    unit.quiet_ticks(2);
    unit.write(Supervisor::CSR, csr::PAUSE_AND_SYNC << 16);
    unit.tick(0, 0, 1);
    unit.quiet();
    assert!(!unit.record.user_sync_waiting && unit.has(csr::GO)); // [Usersync.2]
}

#[test]
fn a_user_sync_waits_for_the_cycle_and_sees_idle_one_tick_later() {
    let mut unit = Unit::running(class_1(5, 1), &[], csr::GO);
    unit.accept();
    unit.write(Supervisor::CSR, csr::FORCE_SYNC | csr::ENABLE_SYNC);
    assert_eq!(unit.quiet().outcome, Outcome::Nothing);
    assert_eq!(unit.quiet().outcome, Outcome::Event(5));
    let answer = unit.quiet(); // main moves to Idle
    assert_eq!((answer.outcome, unit.record.main), (Outcome::Nothing, MainState::Idle));
    assert_eq!(unit.quiet().outcome, Outcome::Tag(0x10)); // [Open: T1]
}

#[test]
fn a_tag_leaves_the_count_and_its_end_zeroes_it() {
    let mut unit = Unit::running(class_1(5, 1), &[(Supervisor::SYNC_INTERVAL, 9)], csr::GO | csr::ENABLE_SYNC);
    event(&mut unit);
    unit.quiet_ticks(9);
    assert_eq!(unit.record.sync_count, 1);
    unit.write(Supervisor::CSR, csr::FORCE_SYNC);
    assert_eq!(unit.quiet().outcome, Outcome::Tag(0x10));
    assert_eq!(unit.record.sync_count, 1); // [Open: S1]
    unit.quiet_ticks(3);
    assert!(!unit.record.user_sync_waiting);
    assert_eq!(unit.record.sync_count, 0); // [Usersync.2]
}

#[test]
fn the_wait_ends_while_a_branch_is_at_drop() {
    let mut unit = Unit::running(0, &[CONTROLLER], csr::FORCE_SYNC | csr::ENABLE_SYNC);
    unit.quiet_ticks(2);
    unit.tick(0, 0, 1);
    unit.tick(0, 0, 1);
    assert!(!unit.record.user_sync_waiting);
    assert_eq!(unit.states()[0], BranchState::Drop);
    assert!(unit.record.is_active()); // "Active" asks for Rest. [Active.1] [Open: B4]
    unit.quiet();
    assert!(!unit.record.is_active());
}
