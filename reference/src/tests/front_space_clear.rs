//! The main sequencer's age, Front, Space and Clear.

use super::*;

/// Age while main stands at Front with the front busy, so that only age moves.
fn at_front(registers: &[(u32, u32)], csr_bits: u32) -> Unit {
    let mut unit = Unit::running(class_1(5, 1), registers, csr::GO | csr_bits);
    unit.accept();
    while unit.record.main != MainState::Front {
        unit.tick(0, line::FRONT_BUSY, 0);
    }
    unit
}

#[test]
fn front_waits_while_busy() {
    let mut unit = at_front(&[], 0);
    for _ in 0..5 {
        assert_eq!(unit.tick(0, line::FRONT_BUSY, 0).outcome, Outcome::Nothing);
        // [Main.8]
    }
    assert_eq!(unit.quiet().outcome, Outcome::Event(5));
}

#[test]
fn front_waits_for_t4_in_use() {
    let mut unit = at_front(&[(Supervisor::T4, 4)], csr::USE_T4);
    let mut loaded_at = 0;
    while loaded_at == 0 {
        if unit.quiet().outcome != Outcome::Nothing {
            loaded_at = unit.record.age;
        }
    }
    assert_eq!(loaded_at, 8); // [Main.8] [Widths.3]
    let mut unused = at_front(&[(Supervisor::T4, 0xFFFF)], 0);
    assert_eq!(unused.quiet().outcome, Outcome::Event(5));
}

#[test]
fn age_stops_at_its_limit() {
    let mut unit = at_front(&[], 0);
    unit.record.age = Supervisor::AGE_LIMIT - 2;
    let ages: Vec<u32> = (0..4)
        .map(|_| {
            unit.tick(0, line::FRONT_BUSY, 0);
            unit.record.age
        })
        .collect();
    assert_eq!(ages, [131_069, 131_070, 131_070, 131_070]); // [Main.1]
}

#[test]
fn longest_timers_end_at_the_age_limit() {
    for (number, bit) in [(Supervisor::T2, 0), (Supervisor::T3, 0), (Supervisor::T4, csr::USE_T4)] {
        let mut unit = Unit::running(class_1(5, 1), &[(number, 0xFFFF)], csr::GO | bit);
        unit.accept();
        unit.quiet();
        unit.record.age = Supervisor::AGE_LIMIT - 2;
        unit.quiet();
        let waiting = if bit == 0 { MainState::Delay } else { MainState::Front };
        assert_eq!(unit.record.main, waiting);
        unit.quiet();
        assert_ne!(unit.record.main, waiting, "age 131,070 is 2 × FFFFh"); // [Main.1] [Main.7] [Main.8]
    }
}

#[test]
fn age_rises_in_every_state_but_idle() {
    let mut unit = Unit::running(class_3(5, 1), &[(Supervisor::ROC_ENABLE, 1)], csr::GO | csr::ROC_LOCK);
    unit.quiet_ticks(3);
    assert_eq!(unit.record.age, 0);
    unit.accept();
    let lines = [0, line::LEVEL_2_PASS, 0, line::LEVEL_3_PASS, line::FRONT_BUSY, 0, 0, 0, 0];
    for (done, lines) in lines.into_iter().enumerate() {
        unit.tick(0, lines, 0);
        assert_eq!(unit.record.age, done as u32 + 1); // [Main.1]
    }
    assert_eq!(unit.record.main, MainState::Space);
}

#[test]
fn clear_holds_its_line_for_t5() {
    // (CSR bit 8, T5, c at entry) [Main.15] [Main.16]
    for (bit, t5, expected) in [(0, 0, 1), (0, 9, 1), (csr::USE_T5, 0, 1), (csr::USE_T5, 1, 1), (csr::USE_T5, 255, 255)]
    {
        let mut unit = Unit::running(class_2(5, 3), &[(Supervisor::T5, t5)], csr::GO | bit);
        unit.accept();
        let answer = unit.tick(0, line::LEVEL_2_FAIL, 0);
        assert_eq!((answer.outcome, answer.lines), (Outcome::Cleared, 0x0323));
        assert_eq!(unit.record.clear_count, expected);
        let mut high = 1;
        while unit.quiet().lines & line_out::CLEAR != 0 {
            high += 1;
        }
        assert_eq!(high, expected);
        // The tick that took c to 0 did not leave, the next one does.
        assert_eq!((unit.record.main, unit.record.clear_count), (MainState::Clear, 0));
        assert_eq!(unit.quiet().lines, 0);
        assert_eq!(unit.record.main, MainState::Idle);
    }
}

#[test]
fn clear_leaves_by_the_front_test() {
    let mut unit = Unit::running(class_2(5, 3), &[(Supervisor::T4, 5)], csr::GO | csr::USE_T4);
    unit.accept();
    unit.tick(0, line::LEVEL_2_FAIL, 0);
    let mut left_after = 2;
    while unit.record.main == MainState::Clear {
        unit.quiet();
        left_after += 1;
    }
    // The accept is tick 1; the tick with risen age 10 is the eleventh. [Main.15] [Open: M6]
    assert_eq!(left_after, 11);

    let mut busy = Unit::running(class_2(5, 3), &[], csr::GO);
    busy.accept();
    busy.tick(0, line::LEVEL_2_FAIL, 0);
    for _ in 0..5 {
        let answer = busy.tick(0, line::FRONT_BUSY, 0);
        assert_eq!(answer.lines, 0x0303);
        assert_eq!(busy.record.main, MainState::Clear);
    }
    busy.quiet();
    assert_eq!(busy.record.main, MainState::Idle);
}

#[test]
fn a_move_to_idle_puts_all_to_0() {
    let mut unit = Unit::running(class_3(15, 0xFF), &[], csr::GO | csr::LEVEL_1_HARDWARE);
    let idle = unit.record.clone();
    unit.accept();
    unit.tick(0, line::LEVEL_2_PASS, 0);
    unit.tick(0, line::LEVEL_3_FAIL, 0);
    assert_eq!(unit.quiet().lines, 0xFF4F);
    // The line of CSR bit 5 follows the CSR. [Main.17] [Answer.1]
    assert_eq!(unit.quiet().lines, line_out::LEVEL_1_HARDWARE);
    assert_eq!(unit.record, Supervisor { scalers: [0, 1], ..idle });
}

#[test]
fn clearing_go_does_not_end_a_cycle() {
    let mut unit = Unit::running(class_1(5, 1), &[], csr::GO);
    unit.accept();
    unit.write(Supervisor::CSR, csr::GO << 16);
    assert_eq!(unit.outcome(), Outcome::Event(5));
    unit.run_to_idle();
}

#[test]
fn space_sees_a_removed_word_one_tick_later() {
    let mut unit = Unit::running(class_1(5, 1), &[(Supervisor::ROC_ENABLE, 1)], csr::GO | csr::ROC_LOCK);
    unit.accept();
    unit.quiet_ticks(5);
    assert_eq!((unit.record.main, unit.used()), (MainState::Space, [1, 0, 0, 0]));
    assert_eq!(unit.tick(0, 0, 1).finished[0], Some(5));
    assert_eq!((unit.record.main, unit.used()), (MainState::Space, [0; 4])); // [Tick.2] [Open: T1]
    unit.tick(0, 0, 1);
    assert_eq!(unit.record.main, MainState::Idle);
}

#[test]
fn roc_locks_make_the_depth_1() {
    // (CSR bit, enabled controller, does it lock that branch) [Main.13]
    let cases = [
        (0, 1 << 0, false),
        (0, 1 << 24, false),
        (csr::ROC_LOCK, 1 << 0, true),
        (csr::ROC_LOCK, 1 << 8, true),
        (csr::ROC_LOCK, 1 << 16, true),
        (csr::ROC_LOCK, 1 << 24, true),
        (csr::ROC_LOCK_BRANCH_4, 1 << 0, false),
        (csr::ROC_LOCK_BRANCH_4, 1 << 8, false),
        (csr::ROC_LOCK_BRANCH_4, 1 << 16, false),
        (csr::ROC_LOCK_BRANCH_4, 1 << 24, true),
        (csr::ROC_LOCK | csr::ROC_LOCK_BRANCH_4, 1 << 0, true),
    ];
    for (bit, enable, locks) in cases {
        let mut unit = Unit::running(class_1(5, 1), &[(Supervisor::ROC_ENABLE, enable)], csr::GO | bit);
        unit.accept();
        unit.quiet_ticks(20);
        let expected = if locks { MainState::Space } else { MainState::Idle };
        assert_eq!(unit.record.main, expected, "CSR {bit:X}, enable {enable:X}");
    }
}

#[test]
fn a_roc_lock_set_or_cleared_in_space_acts_from_the_next_tick() {
    let mut unit = Unit::running(class_1(5, 1), &[(Supervisor::ROC_ENABLE, 1)], csr::GO | csr::ROC_LOCK);
    unit.accept();
    unit.quiet_ticks(20);
    assert_eq!(unit.record.main, MainState::Space);
    unit.write(Supervisor::CSR, csr::ROC_LOCK << 16);
    unit.quiet();
    assert_eq!(unit.record.main, MainState::Idle); // [Main.13]
}

#[test]
fn a_cycle_in_class_0_is_decided_by_the_same_sentences() {
    // Not spoiled, though no list of calls gets there. [Open: A5]
    for main in
        [MainState::Delay, MainState::Wait3, MainState::Front, MainState::Space, MainState::SyncHold, MainState::Clear]
    {
        let mut unit = Unit::fresh(0);
        unit.record.main = main;
        let answer = unit.tick(0, line::LEVEL_3_PASS, 0);
        let next = match main {
            MainState::Delay | MainState::Wait3 => MainState::Front,
            MainState::Front => MainState::Space,
            _ => MainState::Idle,
        };
        assert_eq!(unit.record.main, next);
        assert_eq!(answer.outcome, if main == MainState::Front { Outcome::Event(0) } else { Outcome::Nothing });
    }
}
